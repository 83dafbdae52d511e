#!/bin/bash
# bench_graph.sh: measures how long bin/dmk -q (scripts/build.sh makes it) takes over graphs of 1,000, 10,000 and 99,997 nodes, as
# processor time and as time for each node: a flat one, a chain, layers, hidden prerequisites (500 headers, 20 a target), and
# one line with a `.WAIT` between 500 and 500 names. Nothing is tested.
set -eu
cd "$(dirname "$0")/.."
[ -x bin/dmk ] || { echo "there is no bin/dmk: scripts/build.sh makes it"; exit 2; }
work=$(mktemp -d)
trap 'rm -rf "$work"' EXIT
for shape in flat chain layers hidden waits; do
    for nodes in 1000 10000 99997; do
        rm -rf "$work/tree"
        mkdir "$work/tree"
        python3 scripts/bench_graph.py "$shape" "$nodes" "$work/tree" bin/dmk
    done
done
