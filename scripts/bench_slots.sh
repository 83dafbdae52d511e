#!/bin/bash
# A recursive build by dmk and by GNU make, timed: 30 folders of 30 recipes each, which share the job slots of the run at the top.
# bench_slots.sh [WORKERS [SECONDS]]: 8 workers and recipes that sleep 0.05 s, else. No state is kept.
set -eu
cd "$(dirname "$0")/.."
PATH=$PWD/crates/dmk/out:$PATH
workers=${1:-8} nap=${2:-0.05}
place=$(realpath "$(mktemp -d)")
trap 'rm -rf "$place"' EXIT
cd "$place"
unset MAKEFLAGS MAKELEVEL KEEP_STATE

folders=$(seq -f 'd%g' -s ' ' 30) targets=$(seq -f 't%g' -s ' ' 30)
{
    echo "all: $(seq -f 'in_d%g' -s ' ' 30)"
    for folder in $folders; do
        printf 'in_%s:\n\tcd %s && $(MAKE) $(FLAGS)\n' "$folder" "$folder"
    done
} >makefile
for folder in $folders; do
    mkdir "$folder"
    printf 'all: %s\n%s:\n\tsleep %s; : >$@\n' "$targets" "$targets" "$nap" >"$folder/makefile"
done

# GNU make hands its slots on by itself; each dmk below is told how many workers it may have.
timed() {
    local began ended
    rm -f d*/t*
    began=$(date +%s%N)
    "$@" >out 2>&1 || { cat out; exit 1; }
    ended=$(date +%s%N)
    [ "$(ls d*/t* | wc -l)" -eq 900 ] || { echo "not all was made by $1"; exit 1; }
    echo "$1: $(((ended - began) / 1000000)) ms"
}
for _ in 1 2 3; do
    timed dmk -s -j "$workers" FLAGS="-s -j $workers"
    timed make -s -j "$workers" FLAGS=-s
done
