"""The files by which any engine runs the jobs of a region: one script that runs a job, and how make and Slurm call it."""
import shlex
from operator import attrgetter
from pathlib import Path

from .plan import tile_name

TOOL = Path(__file__).resolve().parent.parent / "districts"

JOB = """\
#!/bin/sh
# Written by tools/districts. `sh job NAME ..` runs jobs/NAME.cga where that wasn't done. What is half written has a name
# of its own. What is whole ends with the job's name, the digest of all lines before, and that of the program.
cd "$(dirname "$0")" || exit 1
program=$(sha256sum <{name}) || exit 1
if [ "program-$(printf %.20s "$program")" != {name} ]; then
  echo "{name} isn't the program of the cut: cut the script again" >&2
  exit 1
fi
status=0
for name in "$@"; do
  [ ! -e "jobs/$name.out" ] || continue
  part=jobs/$name.$(uname -n).$$.part
  {program} <"jobs/$name.cga" >"$part" && sum=$(sha256sum <"$part") &&
    echo "# job $name ${sum%% *} ${program%% *}" >>"$part" && mv "$part" "jobs/$name.out" && continue
  status=$?
  rm -f "$part"
  case $status in
    4) why="its output can't be written, since the disk is full or closed: make room, and run it again" ;;
    6) why="memory was wanting: run it again, with more" ;;
    *) why="run it again, with more memory where that was wanting" ;;
  esac
  echo "job $name ended with status $status: $why" >&2
done
exit $status
"""

TOOL_CALL = """\
#!/bin/sh
# Written by tools/districts, which is called with these words for this folder.
cd "$(dirname "$0")" || exit 1
word=$1
shift
exec {tool} "$word" "$PWD" "$@"
"""

MAKEFILE = """\
# Written by tools/districts. `make -j 8` runs the jobs that weren't run, and checks what they printed; `make -j 8 town.obj`
# joins it, too, and `make -j 8 tiles/tileset.json` makes tiles. With RUN='srun -Q -n1' each job is a step of Slurm.
RUN =
JOBS := {jobs}
TILES := {tiles}

counts: plan.json $(JOBS:%=jobs/%.out)
	@sh tool check || {{ [ $$? = 3 ] && $(MAKE) counts; }}

town.obj: counts
	sh tool join

tiles/tileset.json: counts $(TILES:%=tiles/%.glb)
	sh tool tiles

jobs/%.out: jobs/%.cga
	$(RUN) sh job $*

$(TILES:%=tiles/%.glb): | counts
	$(RUN) sh tool tile $(@F:.glb=)
"""

SLURM = """\
#!/bin/sh
# Written by tools/districts. `sh slurm [OPTION OF SBATCH ..]` submits the jobs that weren't run as one array, and behind it
# a check, which submits the next round where there is one. A task has EACH jobs, 200 if it isn't said. THEN=join joins in the
# end, and THEN=tiles makes the tiles by an array of their own. Call it again after a failure.
[ -n "$DISTRICTS_TASK" ] || cd "$(dirname "$0")" || exit 1  # Slurm runs a copy of this from elsewhere, but in this folder
export THEN EACH
own() {
  awk -v task="$SLURM_ARRAY_TASK_ID" -v tasks="$DISTRICTS_TASKS" 'NR % tasks == task % tasks' "$DISTRICTS_TODO"
}
# the words behind `sh slurm` for the task, a list of names, the task behind it, and the options of sbatch
submit() {
  task=$1 list=$2 next=$3
  shift 3
  number=$(wc -l <"$list")
  most=$(scontrol show config 2>/dev/null | sed -n 's/^MaxArraySize *= *//p')
  tasks=$(( (number + ${EACH:-200} - 1) / ${EACH:-200} ))
  tasks=$(( tasks < ${most:-1001} ? tasks : ${most:-1001} - 1 ))
  array= after=
  if [ "$number" -gt 0 ]; then
    mkdir -p logs
    array=$(DISTRICTS_TASK=$task DISTRICTS_TASKS=$tasks DISTRICTS_TODO=$list sbatch --parsable --job-name=districts \\
      --array="1-$tasks" --output="logs/%A_%a.log" "$@" slurm) || exit
    after=--dependency=afterany:${array%%;*}
  fi
  end=$(DISTRICTS_TASK=$next sbatch --parsable --job-name=$next $after --output=slurm.log --open-mode=append "$@" slurm "$@") || exit
  echo "${array:+$number $task in array ${array%%;*} of $tasks tasks, then }$next ${end%%;*}; its end is told in slurm.log"
}
list=todo-$$.$(date +%s)
case $DISTRICTS_TASK in
  jobs) exec sh job $(own) ;;
  tiles) exec sh tool tile $(own) ;;
  tileset) exec sh tool tiles ;;
  check)
    export DISTRICTS_TASK=
    sh tool check || { status=$?; [ $status = 3 ] && exec sh slurm "$@"; exit $status; }
    case $THEN in
      "") exit ;;
      tiles) sh tool todo --tiles >"$list" && submit tiles "$list" tileset "$@" ;;
      *) exec sh tool "$THEN" ;;
    esac ;;
  *) sh tool todo >"$list" && submit jobs "$list" check "$@" ;;
esac
"""


def engines(program, words, jobs):
    """The files by name."""
    call = " ".join(["./" + program, *map(shlex.quote, words)])
    yield "job", JOB.replace("{program}", call).replace("{name}", program)
    yield "tool", TOOL_CALL.format(tool=shlex.quote(str(TOOL)))
    names = [" ".join(dict.fromkeys(name(job) for job in jobs)) for name in (attrgetter("name"), tile_name)]
    yield "Makefile", MAKEFILE.format(jobs=names[0], tiles=names[1])
    yield "slurm", SLURM
