#!/usr/bin/env bash
# The programs beside cga_city: how cga_live and cga_hulls end where an end fails, that the replies of cga_live are the stored
# ones, its random scripts, and the clients of docs/LIVE.md. They have to be built, as `rt ci` leaves them.
set -uo pipefail
cd "$(dirname "${BASH_SOURCE[0]}")/.."
work=$(mktemp -d)
trap 'rm -rf "$work"' EXIT
export PYTHONDONTWRITEBYTECODE=1
passed=0 failed=0

built() {
  local program=crates/$1/out/$1
  [ -x "$program" ] || (cd "crates/$1" && rt run </dev/null >/dev/null) || exit 1
  echo "$program"
}
live=$(built cga_live) || exit 1
hulls=$(built cga_hulls) || exit 1

# ends NAME STATUS WANTED-OUTPUT WANTED-LINE: compares what the last run left with what is wanted
ends() {
  if [ "$status" = "$2" ] && cmp -s "$work/out" "$3" && [ "$(cat "$work/err")" = "$4" ]; then
    passed=$((passed + 1))
  else
    failed=$((failed + 1))
    echo "differs: $1 (status $status)"
  fi
}

# run PROGRAM WORD..: on standard input; what it writes is left in $work
run() {
  "$@" >"$work/out" 2>"$work/err"
  status=$?
}

# full PROGRAM: where nothing can be written
full() {
  "$1" <examples/first_box.cga 2>"$work/err" >/dev/full
  status=$?
  : >"$work/out"
}

: >"$work/nothing"
for words in x --help --version '--decimals 3' '--town 2'; do
  # shellcheck disable=SC2086
  run "$live" $words </dev/null
  ends "the words $words" 2 "$work/nothing" 'usage: cga_live'
done
run "$live" '' </dev/null
ends 'an empty word' 2 "$work/nothing" 'usage: cga_live'
for words in x --help --version '--decimals 10' '--decimals x' --decimals '--decimals 3 --decimals 3' '--town 2' '--decimals 3 --town 2'; do
  # shellcheck disable=SC2086
  run "$hulls" $words </dev/null
  ends "boxes for the words $words" 2 "$work/nothing" 'usage: cga_hulls [--decimals N]'
done
for program in "$live" "$hulls"; do
  (exec -a $'\xff' "$program") </dev/null >"$work/out" 2>"$work/err"
  status=$?
  ends 'words that are no text' 7 "$work/nothing" "${program##*/}: cannot read the command line"
done
run "$live" <.
ends 'a folder as the script' 3 "$work/nothing" 'cga_live: cannot read'
full "$live"
ends 'a full disk' 4 "$work/nothing" 'cga_live: cannot write'
run "$hulls" <.
ends 'boxes of a folder' 3 "$work/nothing" 'cga_hulls: cannot read'
full "$hulls"
ends 'boxes on a full disk' 4 "$work/nothing" 'cga_hulls: cannot write'

# a vertex of decimals that are said, and of six
printf '%s\n' 'version 2' rules '1: a -> S(1r, 1, 1r) I("cube")' end 'lot a 1 1/3 0 1 1 a' print >"$work/third"
for words in '' '--decimals 0' '--decimals 3' '--decimals=9'; do
  # shellcheck disable=SC2086
  run crates/cga_main/out/cga_main $words <"$work/third"
  { cat "$work/out" && echo '# hull a 1/3 0 0 4/3 1 1'; } >"$work/boxes"
  # shellcheck disable=SC2086
  run "$hulls" $words <"$work/third"
  ends "boxes behind coordinates by the words $words" 0 "$work/boxes" ''
done

# one line of 64 MiB with its line feed, and the same with one byte more
echo '# refused LineTooLong' >"$work/refused"
head -c 67108863 /dev/zero | tr '\0' x >"$work/long"
echo >>"$work/long"
for program in "$live" "$hulls"; do
  run "$program" <"$work/long"
  ends "64 MiB for $program" 0 "$work/refused" ''
done
printf y >>"$work/long"
run "$live" <"$work/long"
ends '64 MiB and a byte' 5 "$work/refused" 'cga_live: script too long'
run "$hulls" <"$work/long"
ends 'boxes of 64 MiB and a byte' 5 "$work/refused" 'cga_hulls: script too long'
rm "$work/long"
echo "$passed passed, $failed failed"

.ci/live_replies.py "$live" || failed=$((failed + 1))
.ci/live_at_random.py "$live" crates/cga_main/out/cga_main || failed=$((failed + 1))
.ci/live_clients.py "$live" || failed=$((failed + 1))
[ "$failed" = 0 ]
