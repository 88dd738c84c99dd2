#!/bin/bash
# Tries the must-fail edits of one crate over what its check kept, in seconds each: for the loop. The verdict is the gate's, `rt ci`.
#
#   test/edits.sh NAME [LABEL..]
#
# For each edit it says 'refused' and the first error, or 'NOT REFUSED', or 'BAD EDIT'. It warns where the first error is not a fact
# that fails to hold: a need that cannot be named, or the shape of a proof file. Exit status 0: each was refused; 1: one was not; 2: it
# could not try.
set -u
die() { echo "edits: $*" >&2; exit 2; }
here=$(cd "$(dirname "$0")/.." && pwd -P) || exit 2
[ $# -ge 1 ] || die "usage: test/edits.sh NAME [LABEL..]"
name=$1
shift
crate=$here/crates/$name
[ -d "$crate/src" ] || die "there is no crate $name"
command -v rt >/dev/null 2>&1 || die "the Rattle kit is needed, and 'rt' is not on PATH"
command -v python3 >/dev/null 2>&1 || die "python3 is needed"
export RT_JOBS=${RT_JOBS:-1}

if [ $# -eq 0 ]; then
    for edit in "$crate"/must-fail/*.edit; do
        [ ! -f "$edit" ] || set -- "$@" "$(basename "$edit" .edit)"
    done
fi
[ $# -gt 0 ] || die "$name has no must-fail edit"
for label; do
    [ -f "$crate/must-fail/$label.edit" ] || die "$name has no edit $label"
done

work=$(mktemp -d) || exit 2
trap 'rm -rf "$work"' EXIT

# A tree that is this one, without what checks left in it. Without an edit the crate is proved there; this also proves what it stands on,
# and keeps what the edits begin with.
mkdir "$work/tree" || exit 2
tar -C "$here" --exclude=out -cf - crates.txt crates | tar -C "$work/tree" -xf - || exit 2
check() { (cd "$work/tree/crates/$name" && rt check) >"$work/log" 2>&1; }
check || {
    grep -m 5 -e ': error' -e '^rt: ' "$work/log"
    die "without an edit $name is not proved: 'rt check' in crates/$name says why"
}

# Copies the crate afresh and makes the edit there, as `rt must-fail` does: each 'old:' text stands in its file once. Says what is bad.
edited() { # LABEL
    local part
    for part in src specs proofs; do
        rm -rf "$work/tree/crates/$name/$part" || return
        [ ! -d "$crate/$part" ] || cp -R "$crate/$part" "$work/tree/crates/$name/" || return
    done
    python3 - "$crate/must-fail/$1.edit" "$work/tree/crates/$name" <<'END'
import os, sys

name, old, pairs = None, None, 0
for line in open(sys.argv[1], encoding="utf-8").read().split("\n"):
    if line.startswith("file: "):
        name = line[6:]
    elif line.startswith("old: "):
        old = line[5:]
    elif line.startswith("new:"):
        path = os.path.join(sys.argv[2], name or "")
        if not name or ".." in name.split("/") or not os.path.isfile(path):
            sys.exit("a 'file:' line names no file of the crate")
        text = open(path, encoding="utf-8").read()
        if not old or text.count(old) != 1:
            sys.exit("an 'old:' text is in %s %d times" % (name, text.count(old) if old else 0))
        new = line[4:]
        new = new[1:] if new.startswith(" ") else new
        open(path, "w", encoding="utf-8").write(text.replace(old, new))
        old, pairs = None, pairs + 1
if pairs == 0:
    sys.exit("it has no 'old:' and 'new:' pair")
END
}

# The first error of the log that is one by itself: what only follows from another proof that failed is passed over.
first_error() {
    local found
    found=$(grep -e ': error' -e '^note: [^ ]*:[0-9]*:[0-9]*:' "$work/log" | grep -m 1 -v 'was not admitted (it has holes')
    [ -n "$found" ] || found=$(grep -m 1 ': error' "$work/log")
    echo "${found//"$work/tree/crates/$name/"/}"
}

bad=0
for label; do
    if ! why=$(edited "$label" 2>&1); then
        echo "$name/$label: BAD EDIT: $why"
        bad=1
        continue
    fi
    began=$SECONDS
    check
    status=$?
    took=$((SECONDS - began))
    if [ "$status" -eq 0 ]; then
        echo "$name/$label: NOT REFUSED: the crate is still proved with this edit ($took s)"
        bad=1
    elif [ "$status" -ne 1 ] || ! grep -q '^logic=not-proved' "$work/log"; then
        echo "$name/$label: BAD EDIT: it did not reach the prover (status $status, $took s)"
        head -n 5 "$work/log"
        bad=1
    else
        first=$(first_error)
        echo "$name/$label: refused ($took s): ${first:0:${RT_CUT:-600}}"
        if grep -q -e 'that can be named from here' -e 'not in scope' -e 'has no field' -e 'has no clause' -e 'has no item' -e 'are not asked for' <<<"$first"; then
            echo "$name/$label: WARNING: the first error is about a name or the shape of a proof, and no fact that fails to hold"
        fi
    fi
done
exit "$bad"
