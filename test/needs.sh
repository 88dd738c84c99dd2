#!/bin/bash
# Sees that what the tests use is there: the Rattle kit, python3 (3.8 or later), cmp, find and the like. What is missing beside the kit is
# installed where that can be done (Debian, as root). A C compiler of the machine is used for the twin where there is one; where there is
# none the kit's own builds it, for x86-64.
set -u
lacking=''
command -v rt >/dev/null 2>&1 || { echo "needs.sh: the Rattle kit is needed, and 'rt' is not on PATH" >&2; exit 1; }
python3 -c 'import sys; sys.exit(sys.version_info < (3, 8))' 2>/dev/null || lacking="$lacking python3"
command -v cmp >/dev/null 2>&1 || lacking="$lacking diffutils"
{ command -v find && command -v xargs; } >/dev/null 2>&1 || lacking="$lacking findutils"
{ command -v sha256sum && command -v timeout && command -v readlink; } >/dev/null 2>&1 || lacking="$lacking coreutils"
[ -n "$lacking" ] || exit 0
if command -v apt-get >/dev/null 2>&1 && [ "$(id -u)" -eq 0 ]; then
    # shellcheck disable=SC2086
    apt-get update -q >&2 && apt-get install -y -q --no-install-recommends $lacking >&2 && exit 0
fi
echo "needs.sh: please install:$lacking" >&2
exit 1
