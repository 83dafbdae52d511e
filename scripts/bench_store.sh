#!/bin/bash
# bench_store.sh [FOLDER]: measures commits of one record to stores of 10, 1,000 and 100,000 entries, in memory and over
# files, beside plain writes and syncs of as many bytes in the same run; and what a sync costs that leaves the file's
# times to later. The files stand in a folder of their own in FOLDER (the current one). Nothing is tested.
set -eu
. "$(dirname "$0")/bench_folder.sh"
program=crates/call_rows/out/call_rows

# plain_writes FILE: the median time of 200 times what a commit asks of the system: a write behind the file's end of as many
# bytes as one record takes, a sync, a write of the byte in front, and a sync.
plain_writes() {
    python3 - "$1" <<'END'
import os, statistics, sys, time

file = os.open(sys.argv[1], os.O_RDWR)
end, took = os.fstat(file).st_size, []
for n in range(200):
    start = time.monotonic_ns()
    os.pwrite(file, bytes(27), end)
    os.fsync(file)
    os.pwrite(file, b"\1", end - 1)
    os.fsync(file)
    took.append(time.monotonic_ns() - start)
    end += 27
print("%d ns" % statistics.median(took))
END
}

for entries in 10 1000 100000; do
    for run in 1 2 3; do
        rm -f "$work"/*
        python3 scripts/state_file.py begun "$work/state" "$entries"
        cp "$work/state" "$work/plain"
        memory=$($program time memory "$work/state")
        files=$($program time commits "$work/state")
        echo "$entries entries, run $run: $memory in memory, $files over files, $(plain_writes "$work/plain") of plain writes"
    done
done
python3 - "$work/syncs" <<'END'
import os, statistics, sys, time

# 200 pairs of a write behind the end and one of a byte that is there, each with a sync of the given kind
def times(sync):
    file = os.open(sys.argv[1], os.O_RDWR | os.O_CREAT | os.O_TRUNC)
    behind, within = [], []
    for n in range(200):
        for took, text, at in ((behind, bytes(27), 1 + 27 * n), (within, b"\1", 27 * n)):
            start = time.monotonic_ns()
            os.pwrite(file, text, at)
            sync(file)
            took.append(time.monotonic_ns() - start)
    os.close(file)
    return statistics.median(behind), statistics.median(within)

for name, sync in (("fsync", os.fsync), ("fdatasync", os.fdatasync)):
    behind, within = times(sync)
    print(f"{name}: {behind:.0f} ns where the file grows, {within:.0f} ns where it does not")
END
