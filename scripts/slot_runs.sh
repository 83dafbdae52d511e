#!/bin/bash
# The smallest build that would hang where a worker waited for a token alone, many times in a row: two targets, two workers and a pool
# with no token in it. slot_runs.sh [TIMES]: 200 times, else. Each run has 20 seconds; it must make both targets, and leave the
# pool empty. The last line is 'N passed, M failed'.
set -u
cd "$(dirname "$0")/.." || exit 2
PATH=$PWD/crates/dmk/out:$PATH
times=${1:-200} passed=0 failed=0
place=$(realpath "$(mktemp -d)") && cd "$place" || exit 2
trap 'rm -rf "$place"' EXIT
printf 'all: a b\na b:\n\t: >$@\n' >makefile
mkfifo pool && exec 3<>pool || exit 2
export MAKEFLAGS=" -j2 --jobserver-auth=fifo:$place/pool"

for ((run = 1; run <= times; run++)); do
    rm -f a b
    timeout 20 dmk -s -j 2
    status=$?
    left=
    read -r -t 0 -u 3 && left=yes
    if [ "$status" -eq 0 ] && [ -e a ] && [ -e b ] && [ -z "$left" ]; then
        passed=$((passed + 1))
    else
        failed=$((failed + 1))
        echo "run $run: status $status, $(ls | tr '\n' ' ')${left:+, a token too many}"
    fi
done
[ "$times" -gt 0 ] || failed=1
echo "$passed passed, $failed failed"
[ "$failed" -eq 0 ]
