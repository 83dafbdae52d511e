#!/bin/bash
# Kills dmk in the midst of its recipes at random moments, up to three times in a tree, and often its recipes too; then lets a
# run end, which is started at once and itself waits for recipes that go on. The state must be readable after each kill, each
# target have its right contents, and a further run nothing to do.
# The last line is 'N passed, M failed'. Usage: kill_runs.sh [TREES]
set -u
cd "$(dirname "$0")/.." || exit 2
dmk=$PWD/crates/dmk/out/dmk
lister=$PWD/crates/dmk_state/out/dmk_state
trees=${1:-40}
passed=0 failed=0
work=$(mktemp -d) || exit 2
trap 'rm -rf "$work"' EXIT

# make_tree FOLDER: 12 targets, each written in two halves with a pause between them, pairs made of them, and one of all.
make_tree() {
    local n
    mkdir "$1"
    {
        echo ".KEEP_STATE:"
        echo "all: $(seq -f 'p%g' -s ' ' 1 6)"
        printf '\tcat %s >all\n' "$(seq -f 'p%g' -s ' ' 1 6)"
        for n in $(seq 1 6); do
            printf 'p%s: t%s t%s\n\tcat t%s >p%s; cat t%s >>p%s\n' "$n" "$n" "$((n + 6))" "$n" "$n" "$((n + 6))" "$n"
        done
        for n in $(seq 1 12); do
            printf 't%s:\n\tprintf half >t%s; sleep 0.05; printf whole >t%s\n' "$n" "$n" "$n"
        done
    } >"$1/makefile"
}

# kill_once FOLDER: begins a run and ends it after at most 0.3 s, alone or with its recipes. The state can be read then.
kill_once() {
    local pid
    (cd "$1" && exec setsid "$dmk" -j 3 >/dev/null 2>&1) &
    pid=$!
    sleep "0.$(printf '%03d' $((RANDOM % 300)))"
    if [ $((RANDOM % 2)) -eq 0 ]; then
        kill -9 "$pid" 2>/dev/null
    else
        kill -9 -- "-$pid" 2>/dev/null || kill -9 "$pid" 2>/dev/null
    fi
    wait "$pid" 2>/dev/null
    (cd "$1" && "$lister" >/dev/null)
}

# is_whole FOLDER: all targets have their contents, and nothing is left to be done.
is_whole() {
    local n
    for n in $(seq 1 12); do
        [ "$(cat "$1/t$n")" = whole ] || return 1
    done
    [ "$(cat "$1/all")" = "$(yes whole | head -n 12 | tr -d '\n')" ] || return 1
    [ -z "$(cd "$1" && "$dmk" -n)" ]
}

for tree in $(seq 1 "$trees"); do
    place=$work/tree$tree
    make_tree "$place"
    why=
    for _ in $(seq 0 $((RANDOM % 3))); do
        kill_once "$place" || why="state not read"
    done
    (cd "$place" && timeout 60 "$dmk" -j 3 >/dev/null 2>&1) || why="$why status"
    is_whole "$place" || why="$why not whole"
    if [ -z "$why" ]; then
        passed=$((passed + 1))
    else
        failed=$((failed + 1))
        echo "FAILED tree $tree: $why"
        (cd "$place" && head -c 20 t* p? all)
    fi
    rm -rf "$place"
done
echo "$passed passed, $failed failed"
[ "$failed" -eq 0 ]
