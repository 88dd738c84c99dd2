#!/bin/bash
# Runs two programs on many texts and compares what they write, byte by byte.
#
#   test/compare.sh SHEETS TWIN SEED COUNT [FILE...]
#
# SHEETS and TWIN are commands, each one argument of one or more words, as "$(test/runner.sh) crates/sheets/out/sheets".
# COUNT texts are made from SEED; the FILEs are compared too, and where FILE is NAME.txt and there is a
# NAME.out, both programs must write just that.  Exit status 1 at the first difference.
set -u

here=$(cd "$(dirname "$0")" && pwd)
if [ $# -lt 4 ]; then
    echo "usage: test/compare.sh SHEETS TWIN SEED COUNT [FILE...]" >&2
    exit 2
fi
read -ra sheets <<<"$1"
read -ra twin <<<"$2"
seed=$3 count=$4
shift 4

room=$(mktemp -d) || exit 2
trap 'rm -rf "$room"' EXIT
mkdir "$room/texts"
python3 "$here/texts.py" "$seed" "$count" "$room/texts" || exit 2

show() { # TITLE FILE
    echo "-- $1 ($(wc -c <"$2") bytes):"
    head -n 12 "$2"
}

differ() { # FILE WHY
    echo "compare.sh: $1: $2"
    echo "-- the text ($(wc -c <"$1") bytes):"
    od -c "$1" | head -n 30
    show "${sheets[*]}" "$room/one"
    show "${twin[*]}" "$room/two"
    cmp "$room/one" "$room/two"
    exit 1
}

# The two run at the same time.
compare() { # FILE
    "${sheets[@]}" <"$1" >"$room/one" 2>"$room/said" &
    "${twin[@]}" <"$1" >"$room/two"
    local second=$?
    wait $!
    local first=$?
    [ "$first" -eq 0 ] || { cat "$room/said"; differ "$1" "the first program ended with status $first"; }
    [ "$second" -eq 0 ] || differ "$1" "the second program ended with status $second"
    cmp -s "$room/one" "$room/two" || differ "$1" "the two outputs differ"
    local wanted=${1%.txt}.out
    if [ -f "$wanted" ]; then
        cmp -s "$room/one" "$wanted" || differ "$1" "both outputs are the same, and $wanted is another"
    fi
}

done=0
for file in "$room"/texts/*.txt "$@"; do
    # A pattern that matched nothing stands for no text.
    [ "$file" != "$room/texts/*.txt" ] || continue
    [ -f "$file" ] || { echo "compare.sh: there is no file $file" >&2; exit 2; }
    compare "$file"
    done=$((done + 1))
done
echo "$done texts compared"
