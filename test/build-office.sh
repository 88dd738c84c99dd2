#!/bin/bash
# Compiles C files for x86-64 and links them with target/staticlib/liboffice.a, by the kit's own compiler and linker.
#
#   test/build-office.sh OUT FILE.c..
set -eu
here=$(cd "$(dirname "$0")" && pwd)
# shellcheck source=test/kit.sh
. "$here/kit.sh"
die() { echo "build-office.sh: $*" >&2; exit 2; }
[ $# -ge 2 ] || die "usage: test/build-office.sh OUT FILE.c.."
[ -n "$kit_tools" ] || die "the Rattle kit is needed, and 'rt' is not on PATH"
library=$here/../target/staticlib/liboffice.a
[ -f "$library" ] || die "there is no library yet: bin/office-library builds it"
out=$1
shift
room=$(mktemp -d)
trap 'rm -rf "$room"' EXIT
objects=()
for file; do
    object=$room/$(basename "$file" .c).o
    "$kit_tools/bin/clang" --target=x86_64-unknown-linux-gnu -march=x86-64 -std=c11 -Wall -Wextra -Werror -O2 -fPIE \
        -isystem "$here/headers" -I "$here/../include" -c -o "$object" "$file"
    objects+=("$object")
done
said=$("$kit_bin/rattle-link" --target x86_64-unknown-linux-gnu --toolchain "$kit_tools" -o "$out" "${objects[@]}" "$library" 2>&1) ||
    die "the kit's linker failed: $said"
