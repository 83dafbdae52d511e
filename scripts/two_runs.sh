#!/bin/bash
# Starts two runs of dmk over one state at a random distance of up to 0.3 s, the second in every other pair by a link to the state.
# Both must end well, each target be made once, the state be whole, and a further run have nothing to do.
# The last line is 'N passed, M failed'. Usage: two_runs.sh [PAIRS]
set -u
cd "$(dirname "$0")/.." || exit 2
dmk=$PWD/crates/dmk/out/dmk
lister=$PWD/crates/dmk_state/out/dmk_state
pairs=${1:-50}
passed=0 failed=0
work=$(mktemp -d) || exit 2
trap 'rm -rf "$work"' EXIT
unset MAKEFLAGS MAKELEVEL MFLAGS KEEP_STATE SUNPRO_DEPENDENCIES DMK_HOLDS

# make_folder FOLDER: 30 targets, each of which notes in a log that it is made, and one of all.
make_folder() {
    mkdir "$1"
    {
        echo ".KEEP_STATE:"
        echo "all: $(seq -f 't%g' -s ' ' 1 30)"
        printf '\tcat %s >all; echo all >>log\n' "$(seq -f 't%g' -s ' ' 1 30)"
        seq -f 't%g' 1 30 | while IFS= read -r target; do
            printf '%s:\n\techo %s >%s; sleep 0.01; echo %s >>log\n' "$target" "$target" "$target" "$target"
        done
    } >"$1/makefile"
    # A link that leads nowhere yet is refused.
    : >"$1/.make.state"
    ln -s .make.state "$1/link"
}

# run_pair FOLDER NAME: the second run names the state so.
run_pair() {
    local first
    (cd "$1" && exec timeout 60 "$dmk" -s -j 4 2>first) &
    first=$!
    sleep "0.$(printf '%03d' $((RANDOM % 300)))"
    (cd "$1" && timeout 60 "$dmk" -s -j 4 -K "$2" 2>second) || return 1
    wait "$first"
}

for pair in $(seq 1 "$pairs"); do
    place=$work/pair$pair
    make_folder "$place"
    name=.make.state why=
    [ $((pair % 2)) -eq 0 ] || name=link
    run_pair "$place" "$name" || why="status"
    [ "$(sort "$place/log")" = "$({ seq -f 't%g' 1 30; echo all; } | sort)" ] || why="$why made"
    [ "$(cd "$place" && "$lister" | grep -c '^done ')" = 31 ] || why="$why state"
    (cd "$place" && "$dmk" -q) || why="$why question"
    if [ -z "$why" ]; then
        passed=$((passed + 1))
    else
        failed=$((failed + 1))
        echo "FAILED pair $pair: $why"
        head -n 20 "$place/first" "$place/second"
    fi
    rm -rf "$place"
done
echo "$passed passed, $failed failed"
[ "$failed" -eq 0 ]
