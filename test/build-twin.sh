#!/bin/bash
# Compiles the twin, test/twin.c, to OUT.
#
#   test/build-twin.sh OUT [native|x86-64]
#
# native (the default) is for this machine, by CC or cc: the quick one, for comparing outputs.
# x86-64 is for the benchmark: by the kit's own clang at -O3 and the kit's linker, just as a Rattle
# program is compiled.  Without a kit it is cc on x86-64, or Debian's cross compiler elsewhere.
set -eu

here=$(cd "$(dirname "$0")" && pwd)
# shellcheck source=test/kit.sh
. "$here/kit.sh"
strict='-std=c11 -Wall -Wextra -Werror'

die() { echo "build-twin.sh: $*" >&2; exit 2; }

build_native() {
    command -v "${CC:-cc}" >/dev/null 2>&1 ||
        die "no C compiler: '${CC:-cc}' is not on PATH (install gcc or clang, or set CC)"
    # shellcheck disable=SC2086
    "${CC:-cc}" $strict -O2 -o "$1" "$here/twin.c"
}

build_with_kit() {
    local said
    room=$(mktemp -d)
    # room is no local: the trap runs after the function has ended.
    trap 'rm -rf "$room"' EXIT
    # shellcheck disable=SC2086
    "$kit_tools/bin/clang" --target=x86_64-unknown-linux-gnu -march=x86-64 $strict -O3 -fPIE \
        -c -o "$room/twin.o" "$here/twin.c"
    said=$("$kit_bin/rattle-link" --target x86_64-unknown-linux-gnu --toolchain "$kit_tools" \
        -o "$1" "$room/twin.o" 2>&1) || die "the kit's linker failed: $said"
}

build_x86_64() {
    if [ -n "$kit_tools" ]; then
        build_with_kit "$1"
    elif [ "$(uname -m)" = x86_64 ]; then
        build_native "$1"
    elif command -v x86_64-linux-gnu-gcc >/dev/null 2>&1; then
        # Static, because the machine has no C library for x86-64 to run it with.
        # shellcheck disable=SC2086
        x86_64-linux-gnu-gcc $strict -O3 -static -o "$1" "$here/twin.c"
    else
        die "cannot compile for x86-64 on $(uname -m): there is neither the Rattle kit ('rt' on PATH)" \
            "nor x86_64-linux-gnu-gcc (Debian: gcc-x86-64-linux-gnu)"
    fi
}

{ [ $# -ge 1 ] && [ $# -le 2 ]; } || die "usage: test/build-twin.sh OUT [native|x86-64]"
case ${2:-native} in
native) build_native "$1" ;;
x86-64) build_x86_64 "$1" ;;
*) die "'$2' is neither native nor x86-64" ;;
esac
