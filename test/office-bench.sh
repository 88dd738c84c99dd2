#!/bin/bash
# Measures the library for the office program against the same three calls in plain C, both for x86-64.
#
#   test/office-bench.sh [ROUNDS]
set -eu
cd "$(dirname "$0")/.."
room=$(mktemp -d)
trap 'rm -rf "$room"' EXIT
runner=$(test/runner.sh)
bin/office-library >/dev/null
test/build-office.sh "$room/bench" test/office_bench.c test/office_twin.c
$runner "$room/bench" "${1:-20}"
