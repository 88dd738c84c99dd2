#!/bin/bash
# The library for the office program, called from C: the example against its stored output, and some ten thousand seeded calls, with
# broken and short areas, against the twin in plain C.
#
#   test/office.sh [SEED [ROUNDS]]
set -u
cd "$(dirname "$0")/.." || exit 2
room=$(mktemp -d) || exit 2
trap 'rm -rf "$room"' EXIT
runner=$(test/runner.sh) || exit 2
bin/office-library >"$room/said" 2>&1 || { cat "$room/said"; exit 2; }
test/build-office.sh "$room/office" examples/office.c || exit 2
test/build-office.sh "$room/drive" test/office_drive.c test/office_twin.c || exit 2
$runner "$room/office" "$room/lesson.ledger" >"$room/office.out" || { echo "office.sh: the example ended with status $?"; exit 1; }
cmp "$room/office.out" examples/office.out || exit 1
$runner "$room/drive" "${1:-40}" "${2:-1500}"
