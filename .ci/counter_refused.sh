#!/usr/bin/env bash
# Counters can't be gone round: a library makes none, expands by no other, and ticks none without an expansion. Each
# example that tries to must not compile, and for that reason. Nothing is proved for it: types alone refuse it.
set -uo pipefail
cd "$(dirname "${BASH_SOURCE[0]}")/.."
work=$(mktemp -d)
trap 'rm -rf "$work"' EXIT
mkdir -p "$work/crates/counter/src" "$work/crates/counter/specs" "$work/crates/counter/proofs"
cp HANDLES "$work/"
for crate in $(sed -n 's/^\(cga_[a-z_]*\):.*/\1/p' crates.txt); do
  mkdir -p "$work/crates/$crate"
  for folder in src specs proofs; do
    if [ -d "crates/$crate/$folder" ]; then cp -r "crates/$crate/$folder" "$work/crates/$crate/"; fi
  done
done
: >"$work/crates/counter/specs/Lib.antt"
: >"$work/crates/counter/proofs/Lib.antt"

# refused EXAMPLE REASON DONE CRATE...: the example, over these crates, is refused for this reason
refused() {
  local example=$1 reason=$2 done=$3
  shift 3
  cp crates.txt "$work/crates.txt"
  echo "counter: $*" >>"$work/crates.txt"
  cp "$example" "$work/crates/counter/src/lib.rt"
  printf '\n#[test]\nfn nothing() {}\n' >>"$work/crates/counter/src/lib.rt"
  if (cd "$work/crates/counter" && rt try --test) >"$work/log" 2>&1; then
    echo "$example: it compiles"
    exit 1
  fi
  if ! grep -qF "$reason" "$work/log"; then
    echo "$example: refused for another cause:"
    tail -5 "$work/log"
    exit 1
  fi
  echo "$done"
}

refused crates/cga_fraction/refused/counter_without_runtime.txt 'expected `&mut LibcRuntime`' \
  "a counter without the runtime is refused" cga_fraction
refused crates/cga_expand/refused/expansion_by_tests.txt 'expected `&mut Steps<_, ExpandKey>`, found `&mut Tests<T>`' \
  "an expansion by the counter of box tests is refused" cga_expand cga_fraction cga_rule cga_shape
refused crates/cga_expand/refused/tick_without_expansion.txt 'its constructor is private too' \
  "a tick without an expansion is refused" cga_expand cga_fraction
