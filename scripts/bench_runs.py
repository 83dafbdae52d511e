#!/usr/bin/env python3
"""Times a build of many small recipes with dmk beside GNU make and, where it is installed, ninja, and what the disk asks for
the syncs alone.

usage: bench_runs.py DMK [RECIPES] [WORKERS] [FOLDER]

Each recipe is `: > t`. Of dmk's state it counts records and batches, so how many records share a commit, and by a library in front of
the calls the syncs of a further run. The syncs are made once more alone: the state's, one after the other, and the targets' with
their folder's, by as many threads as there are workers; and, for one worker, all of them with their writes in dmk's order.
"""
import os
import resource
import shutil
import struct
import subprocess
import sys
import tempfile
import threading
import time


COUNTER = r"""
#include <fcntl.h>
#include <stdlib.h>
#include <sys/syscall.h>
#include <unistd.h>
static int counted(int file, long call)
{
    int out = open(getenv("SYNCS"), O_WRONLY | O_CREAT | O_APPEND, 0666);
    if (write(out, ".", 1) != 1)
        abort();
    close(out);
    return (int)syscall(call, file);
}
int fsync(int file) { return counted(file, SYS_fsync); }
int fdatasync(int file) { return counted(file, SYS_fdatasync); }
"""


def batches(path):
    """The number of records of each batch of a side."""
    with open(path, "rb") as file:
        side = file.read()
    at, found = 19, []
    while at < len(side) and side[at]:
        size, count = struct.unpack_from("<II", side, at + 1)
        found.append(count)
        at += 9 + size
    return found


def timed(words, folder):
    """The time that a command takes, and the processor's."""
    before = resource.getrusage(resource.RUSAGE_CHILDREN)
    started = time.monotonic()
    subprocess.run(words, cwd=folder, check=True, stdout=subprocess.DEVNULL)
    took = time.monotonic() - started
    after = resource.getrusage(resource.RUSAGE_CHILDREN)
    worked = after.ru_utime + after.ru_stime - before.ru_utime - before.ru_stime
    return f"{took:.2f} s ({worked:.2f} s of processor)"


def tree(folder, recipes, state):
    os.mkdir(folder)
    with open(f"{folder}/makefile", "w") as file:
        names = [f"t{n}" for n in range(recipes)]
        file.write(".KEEP_STATE:\n" if state else "")
        file.write("all: " + " ".join(names) + "\n")
        for name in names:
            file.write(f"{name}:\n\t: > {name}\n")
    with open(f"{folder}/build.ninja", "w") as file:
        file.write("rule make\n  command = : > $out\n")
        for name in names:
            file.write(f"build {name}: make\n")


def counted_syncs(words, folder):
    """How many syncs a command makes; None where no library can be built."""
    if not shutil.which("cc"):
        return None
    with open(f"{folder}/counter.c", "w") as file:
        file.write(COUNTER)
    words_of_cc = ["cc", "-shared", "-fPIC", "-o", f"{folder}/counter.so", f"{folder}/counter.c"]
    subprocess.run(words_of_cc, check=True)
    syncs = f"{folder}/syncs"
    surroundings = dict(os.environ, LD_PRELOAD=f"{folder}/counter.so", SYNCS=syncs)
    subprocess.run(words, cwd=folder, check=True, stdout=subprocess.DEVNULL, env=surroundings)
    return os.path.getsize(syncs)


def sync_path(path):
    file = os.open(path, os.O_RDONLY)
    os.fsync(file)
    os.close(file)


def in_order(folder, recipes, shells):
    """What one worker writes and syncs of so many recipes: a batch before the first and one behind each, and the targets. These are
    made by a shell each, or without any."""
    os.mkdir(folder)
    side = os.open(f"{folder}/side", os.O_CREAT | os.O_WRONLY)
    end = 1

    def commit(body):
        nonlocal end
        os.pwrite(side, body + b"\0", end)
        os.fsync(side)
        os.pwrite(side, b"\1", end - 1)
        os.fsync(side)
        end += len(body) + 1

    started = time.monotonic()
    commit(bytes(20))
    for n in range(recipes):
        name = f"{folder}/t{n}"
        if shells:
            subprocess.run(["/bin/sh", "-c", f": > {name}"], check=True, stdin=subprocess.DEVNULL)
        else:
            os.close(os.open(name, os.O_CREAT | os.O_WRONLY))
        sync_path(name)
        sync_path(folder)
        commit(bytes(50))
    took = time.monotonic() - started
    os.close(side)
    return took


def state_syncs(folder, count):
    started = time.monotonic()
    with open(f"{folder}/state", "wb", buffering=0) as file:
        for _ in range(count):
            file.write(bytes(60))
            os.fsync(file.fileno())
    return time.monotonic() - started


def target_syncs(folder, recipes, workers):
    os.mkdir(f"{folder}/targets")

    def work(first):
        for n in range(first, recipes, workers):
            name = f"{folder}/targets/t{n}"
            os.close(os.open(name, os.O_CREAT | os.O_WRONLY))
            for path in (name, f"{folder}/targets"):
                sync_path(path)

    started = time.monotonic()
    threads = [threading.Thread(target=work, args=(n,)) for n in range(workers)]
    for thread in threads:
        thread.start()
    for thread in threads:
        thread.join()
    return time.monotonic() - started


def main():
    dmk = os.path.abspath(sys.argv[1])
    recipes = int(sys.argv[2]) if len(sys.argv) > 2 else 1000
    workers = int(sys.argv[3]) if len(sys.argv) > 3 else 4
    place = sys.argv[4] if len(sys.argv) > 4 else None
    with tempfile.TemporaryDirectory(prefix="bench_runs-", dir=place) as folder:
        for name, state in (("make", False), ("ninja", False), ("dmk", True), ("plain", False), ("counted", True)):
            tree(f"{folder}/{name}", recipes, state)
        make = timed(["make", "-s", f"-j{workers}"], f"{folder}/make")
        ninja = "not installed"
        if shutil.which("ninja"):
            ninja = timed(["ninja", f"-j{workers}"], f"{folder}/ninja")
        plain = timed([dmk, "-s", "-j", str(workers)], f"{folder}/plain")
        run = timed([dmk, "-s", "-j", str(workers)], f"{folder}/dmk")
        again = timed([dmk, "-s", "-j", str(workers)], f"{folder}/dmk")
        syncs = counted_syncs([dmk, "-s", "-j", str(workers)], f"{folder}/counted")
        commits = batches(f"{folder}/dmk/.make.state")
        state = state_syncs(folder, 2 * len(commits))
        targets = target_syncs(folder, recipes, workers)
        alone = [in_order(f"{folder}/alone{shells}", recipes, shells) for shells in (False, True) if workers == 1]
    print(f"make -j{workers}: {make}; ninja: {ninja}")
    print(f"dmk without state: {plain}; dmk: {run}; dmk, nothing to do: {again}")
    print(f"records: {sum(commits)}; commits: {len(commits)}; records in the largest: {max(commits, default=0)}")
    print(f"syncs alone: the state's {2 * len(commits)} in {state:.2f} s, the targets' {2 * recipes} in {targets:.2f} s")
    if syncs is not None:
        print(f"syncs: {syncs}, {syncs / recipes:.2f} a recipe")
    if alone:
        print(f"syncs and writes of one worker alone, in order: {alone[0]:.2f} s, with the recipes' shells {alone[1]:.2f} s")


main()
