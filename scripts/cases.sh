#!/bin/bash
# Runs the built programs on cases/PROGRAM/NAME: `cmd`, a shell script, is run in a fresh copy of the case's files/ and
# must give its stdout, stderr and status (each left out where it is empty, or 0). Lines that it writes into a file `notes` are
# printed: that is for what it left out, as where a program isn't there. See docs/TESTING.md.
# The last line is 'N passed, M failed'.
set -u -o pipefail
cd "$(dirname "$0")/.." || exit 2
root=$PWD
passed=0 failed=0
work=$(realpath "$(mktemp -d)") || exit 2
trap 'rm -rf "$work"' EXIT
# Names are sorted by bytes, and nothing is taken from a make that this runs under.
export LC_ALL=C
unset MAKEFLAGS MAKELEVEL MFLAGS KEEP_STATE SUNPRO_DEPENDENCIES
for program in crates/*/out; do
    PATH=$root/$program:$PATH
done

for case in cases/*/*/; do
    [ -d "$case" ] || continue
    place=$work/case got=$work/got why=
    rm -rf "$place" "$got"
    mkdir "$place" "$got"
    [ ! -d "$case/files" ] || cp -r "$case/files/." "$place"
    while IFS= read -r -d '' hex; do
        python3 -c 'import re, sys
text = re.sub("#.*", "", sys.stdin.read())
sys.stdout.buffer.write(bytes.fromhex(text))' <"$hex" >"${hex%.hex}" || why="bad hex $hex"
        rm "$hex"
    done < <(find "$place" -name '*.hex' -print0)
    (cd "$place" && timeout 60 sh "$root/$case/cmd") >"$got/stdout" 2>"$got/stderr" </dev/null
    echo $? >"$got/status"
    # What wasn't run is told by the case.
    [ ! -f "$place/notes" ] || sed "s|^|note: $case: |" "$place/notes"
    for part in stdout stderr status; do
        wanted=$case/$part
        [ -f "$wanted" ] || { wanted=$work/wanted; [ "$part" = status ] && echo 0 >"$wanted" || : >"$wanted"; }
        cmp -s "$wanted" "$got/$part" || why="$why $part"
    done
    if [ -z "$why" ]; then
        passed=$((passed + 1))
    else
        failed=$((failed + 1))
        echo "FAILED $case:$why"
        head -n 20 "$got/stdout" "$got/stderr" "$got/status"
    fi
done
if [ $((passed + failed)) -eq 0 ]; then
    echo "no cases were found"
    failed=1
fi
echo "$passed passed, $failed failed"
[ "$failed" -eq 0 ]
