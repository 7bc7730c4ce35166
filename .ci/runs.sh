#!/usr/bin/env bash
# Runs of the built program: each script with stored replies, the exit statuses, and scripts that are made here since
# they are large.
set -uo pipefail
cd "$(dirname "${BASH_SOURCE[0]}")/.."
./cga_city --prove || exit 1
work=$(mktemp -d)
trap 'rm -rf "$work"' EXIT
passed=0 failed=0

# program WORD..: the program itself, since the launcher tells the meaning of wrong words too; else as run
program() {
  crates/cga_main/out/cga_main "$@" >"$work/out" 2>"$work/err"
  status=$?
}

# run WORD..: the program on standard input; what it writes is left in $work
run() {
  ./cga_city "$@" >"$work/out" 2>"$work/err"
  status=$?
}

# expect NAME STATUS WANTED-OUTPUT WANTED-LINE: compares what the last run left with what is wanted
expect() {
  if [ "$status" = "$2" ] && cmp -s "$work/out" "$3" && [ "$(cat "$work/err")" = "$4" ]; then
    passed=$((passed + 1))
  else
    failed=$((failed + 1))
    echo "differs: $1 (status $status)"
  fi
}

# how many lines of each kind there are: a kind is a line's first word, or its first two where the first is #
counts() {
  awk '{ kind = $1 == "#" ? $1 " " $2 : $1; n[kind]++ } END { for (kind in n) print n[kind], kind }' "$1" | sort
}

: >"$work/nothing"
.ci/scripts.py "$work/scripts" || failed=$((failed + 1))
for script in "$work"/scripts/*; do
  case $script in *.stdout | *.args | *.counts) continue ;; esac
  words=()
  if [ -e "$script.args" ]; then mapfile -t words <"$script.args"; fi
  run ${words[@]+"${words[@]}"} <"$script"
  if [ -e "$script.counts" ]; then
    sort "$script.counts" >"$script.stdout"
    counts "$work/out" >"$work/counted"
    mv "$work/counted" "$work/out"
  fi
  expect "$(basename "$script")" 0 "$script.stdout" ""
done

usage="usage: cga_city [--decimals N] [--town N]"
while read -r -a words; do
  program "${words[@]}" </dev/null
  expect "the words ${words[*]}" 2 "$work/nothing" "$usage"
done <<'WORDS'
x
--help
--version
--city
--decimals
--decimals 10
--decimals -1
--decimals 1 --decimals 1
--town 0
--town 201
--town 2 x
WORDS
program --decimals "" </dev/null
expect "an empty word" 2 "$work/nothing" "$usage"
run <.
expect "a folder as the script" 3 "$work/nothing" "cga_city: cannot read"
./cga_city <examples/first_box.cga 2>"$work/err" >/dev/full
status=$?
: >"$work/out"
expect "a full disk" 4 "$work/nothing" "cga_city: cannot write"
(exec -a $'\xff' crates/cga_main/out/cga_main) </dev/null >"$work/out" 2>"$work/err"
status=$?
expect "words that are no text" 7 "$work/nothing" "cga_city: cannot read the command line"

# one line of 64 MiB with its line feed, and the same with one byte more
echo "# refused LineTooLong" >"$work/refused"
head -c 67108863 /dev/zero | tr '\0' x >"$work/long"
echo >>"$work/long"
run <"$work/long"
expect "64 MiB" 0 "$work/refused" ""
printf y >>"$work/long"
run <"$work/long"
expect "64 MiB and a byte" 5 "$work/refused" "cga_city: script too long"

# memory doesn't grow with the script
(ulimit -v 65536; exec ./cga_city <"$work/long") >"$work/out" 2>"$work/err"
status=$?
expect "64 MiB of script in 64 MiB of memory" 5 "$work/refused" "cga_city: script too long"

# the script that was seen to take the most stack: a rule that asks is dropped below two chains of 255 shapes
cat >"$work/script" <<'END'
rules
1: a : Scope.occ("noparent") == "none" -> Repeat("X", 1) { a }
2: a -> Repeat("X", 1) { a }
end
lot p 1 0 0 2 1 a
drop 1
END
printf '# ok\n# ok\n# ok\n' >"$work/wanted"
(ulimit -s 1024; exec env -i crates/cga_main/out/cga_main) <"$work/script" >"$work/out" 2>"$work/err"
status=$?
expect "two chains and a dropped rule in 1 MiB of stack" 0 "$work/wanted" ""

# as many lots as there may be, and one more
{
  printf 'quiet\nrules\n1: a -> NIL\nend\n'
  for k in $(seq 4097); do echo "lot l$k 1 0 0 1 1 a"; done
  printf 'lot l1 2 0 0 1 1 a\nstats\n'
} >"$work/script"
printf '# refused TooManyLots\n# stats lots 4096 shapes 4096 instances 0 faults 0 expanded 1\n' >"$work/wanted"
run <"$work/script"
expect "a lot too many" 0 "$work/wanted" ""

# assets of as many vertices and faces as there may be, and of one more; and models that are too large by either
{
  printf 'version 2\nquiet\nrules\n1: a -> Repeat("X", 1) { p }\n2: p -> S(1r, 1, 1r) I("cube")\nend\n'
  vertices=$(for k in $(seq 10000); do echo "v $k 0 0"; done)
  faces=$(for _ in $(seq 10000); do echo "f 1 2 3"; done)
  printf 'asset t\n%s\nv 0 0 0\nf 1 2 3\nend\n' "$vertices"
  printf 'asset t\n%s\nf 1 2 10000\nend\n' "$vertices"
  printf 'dress p t\nlot x 1 0 0 401 1 a\nmodel\n'
  printf 'asset t\nv 0 0 0\nv 1 0 0\nv 0 1 0\n%s\nf 1 2 3\nend\n' "$faces"
  printf 'asset t\nv 0 0 0\nv 1 0 0\nv 0 1 0\n%s\nf 1 2 4\nend\n' "$faces"
  printf 'asset t\nv 0 0 0\nv 1 0 0\nv 0 1 0\n%s\nend\n' "$faces"
  printf 'lot x 1 0 0 534 1 a\nmodel\n'
} >"$work/script"
printf '# ok\n# refused TooManyVertices at 10001\n# refused ModelTooLarge\n# refused TooManyFaces at 10004\n# refused BadFace at 10004\n# refused ModelTooLarge\n' >"$work/wanted"
run <"$work/script"
expect "assets and models too large" 0 "$work/wanted" ""

echo "$passed passed, $failed failed"
[ "$failed" = 0 ]
