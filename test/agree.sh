#!/bin/bash
# Compares `sheets`, as it was proved and built, with the twin on some hundred texts from a fixed seed and on every example and every
# refusal that has a stored output.
#
#   test/agree.sh [SEED [COUNT]]
#
# Where `sheets` is not built yet, it is proved and built first. The twin is built by the machine's own C compiler, and where there is none
# by the kit's, for x86-64.
set -u
cd "$(dirname "$0")/.." || exit 2
test/needs.sh || exit 2
room=$(mktemp -d) || exit 2
trap 'rm -rf "$room"' EXIT
runner=$(test/runner.sh) || exit 2
bin/sheets <examples/two-teams.txt >/dev/null || exit 2
twin=$room/twin
if ! test/build-twin.sh "$room/twin" native 2>"$room/said"; then
    # A compiler that is there and does not take the twin is no reason to look elsewhere.
    if command -v "${CC:-cc}" >/dev/null 2>&1; then
        cat "$room/said" >&2
        exit 2
    fi
    test/build-twin.sh "$room/twin" x86-64 || exit 2
    twin="$runner $room/twin"
fi
test/compare.sh "$runner crates/sheets/out/sheets" "$twin" "${1:-40}" "${2:-600}" examples/*.txt test/refusals/*.txt test/many-nodes.txt
