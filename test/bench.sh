#!/bin/bash
# Times `sheets` against the twin on the longest texts, and prints README's table.  It asserts nothing and leaves no file.
#
#   test/bench.sh SHEETS [REPEATS]
#
# SHEETS is the program itself, crates/sheets/out/sheets, which `bin/sheets` proves and builds where it is not there; the twin is built by
# the kit's own compiler.  Each time is the least processor time of REPEATS runs (40), the programs and texts taking turns.  The first row
# is the empty run, a header without a schedule: what starting the process, opening the ledger and the two lines cost, whatever the steps.
# It is taken off the other rows; off the text that is refused the second row is taken.
set -eu

here=$(cd "$(dirname "$0")" && pwd)
if [ $# -lt 1 ] || [ ! -f "$1" ]; then
    echo "usage: test/bench.sh SHEETS [REPEATS], SHEETS being the program's file" >&2
    exit 2
fi
repeats=${2:-40}
room=$(mktemp -d)
trap 'rm -rf "$room"' EXIT
"$here/build-twin.sh" "$room/twin" x86-64
# A copy: a program that is built anew meanwhile is not timed.
cp "$1" "$room/sheets"
words=$("$here/runner.sh")
read -ra run <<<"$words"
echo "best of $repeats runs on $(uname -m), run by: ${words:-nothing in front}"
python3 -B "$here/bench.py" "$repeats" "$room/sheets" "$room/twin" "${run[@]}"
