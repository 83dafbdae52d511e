#!/bin/bash
# bench_compaction.sh [FOLDER]: measures a compaction of 10, 1,000 and 100,000 entries, each with 20 hidden names, over
# files, beside a plain write and sync of as many bytes in the same run. The files stand in a folder of their own in FOLDER
# (the current one). Nothing is tested; docs/FIGURES.md has the last figures.
set -eu
. "$(dirname "$0")/bench_folder.sh"
for entries in 10 1000 100000; do
    for run in 1 2 3; do
        rm -f "$work"/*
        python3 scripts/state_file.py "done" "$work/state" "$entries"
        took=$(crates/call_rows/out/call_rows time compaction "$work/state")
        plain=$(python3 - "$work/state.2" "$work/plain" <<'END'
import os, sys, time
text = open(sys.argv[1], "rb").read()
start = time.monotonic_ns()
file = os.open(sys.argv[2], os.O_RDWR | os.O_CREAT | os.O_TRUNC)
os.write(file, text)
os.fsync(file)
print(time.monotonic_ns() - start)
END
)
        echo "$entries entries, $(stat -c %s "$work/state.2") bytes, run $run: $took, $plain ns of one plain write"
    done
done
