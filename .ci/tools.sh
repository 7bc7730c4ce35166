#!/usr/bin/env bash
# The tools with stored replies and a stand-in for the program, the words of the editors, the add-on where Blender is there,
# and, where the proved program is there, a pass with it: stored and random scripts, regions in jobs. The tests of regions
# refuse planted bugs of the tool.
set -euo pipefail
cd "$(dirname "${BASH_SOURCE[0]}")/.."
# Python with nothing installed beside it, as the tools need it: the tests begin it some hundred times. What is compiled of a
# file is kept for the next start, and not in this folder.
alone=$(mktemp -d)
trap 'rm -rf "$alone"' EXIT
unset PYTHONDONTWRITEBYTECODE
export PYTHONPYCACHEPREFIX=$alone/compiled
if python3 -m venv --without-pip "$alone"; then PATH=$alone/bin:$PATH; fi
python3 -m unittest discover -s tools/tests
tools/tests/in_blender.py
tools/tests/planted_in_districts.py
if ./cga_city --proved; then
  tools/tests/with_program.py --program crates/cga_main/out/cga_main  # itself: the launcher looks at each file at each call
  tools/tests/regions_with_program.py
else
  echo "the pass with the program waits for a proved one: ./cga_city --prove"
fi
