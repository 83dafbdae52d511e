#!/bin/bash
# Measures bin/dmk_state (scripts/build.sh makes it) on two large state files that it writes in a temporary folder: wall
# seconds and greatest memory of the best of three runs. Nothing is tested; docs/FIGURES.md has the last figures.
set -eu
cd "$(dirname "$0")/.."
work=$(mktemp -d)
trap 'rm -rf "$work"' EXIT
for kind in pairs names; do
    file=$work/$kind
    python3 scripts/state_file.py "$kind" "$file"
    best=
    for _ in 1 2 3; do
        took=$(python3 -c 'import resource, subprocess, sys, time
start = time.monotonic()
subprocess.run(sys.argv[1:], stdout=subprocess.DEVNULL, check=True)
print(f"{time.monotonic() - start:.2f} {resource.getrusage(resource.RUSAGE_CHILDREN).ru_maxrss // 1024}")' bin/dmk_state "$file")
        best=$(printf '%s\n%s\n' "$best" "$took" | sed '/^$/d' | sort -n | head -n 1)
    done
    echo "$kind: $(($(stat -c %s "$file") / 1000000)) MB, ${best% *} s, ${best#* } MiB"
done
