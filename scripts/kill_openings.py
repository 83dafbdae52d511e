#!/usr/bin/env python3
"""Kills dmk and its recipes while it compacts a state of over 1 MiB at its opening, at a random moment after a side changed.

usage: kill_openings.py DMK DMK_STATE [TREES]

After each kill the state must be readable and know every target. Then a run is let end: it must say nothing, make the three
targets whose files are gone, and leave the state as it was listed before. The last line is 'N passed, M failed'; those before
it say in which states of the two sides dmk was killed.
"""
import collections
import os
import random
import signal
import subprocess
import sys
import tempfile
import time

from state_file import batch, done, header

TARGETS = [f"t{n}" for n in range(8000)]
SIDES = (".make.state", ".make.state.2")


def recipe(target):
    return f": a recipe of some length, so that the state of all these targets is over a mebibyte in bytes; : >{target}"


def make_tree(folder):
    with open(f"{folder}/makefile", "w") as out:
        out.write(".KEEP_STATE:\nall: " + " ".join(TARGETS) + "\n")
        out.writelines(f"{target}:\n\t{recipe(target)}\n" for target in TARGETS)
    with open(f"{folder}/.make.state", "wb") as out:
        out.write(header(1))
        # Each target is done three times: a side of which half can go is written anew.
        for _ in range(3):
            out.writelines(batch([done(target, [recipe(target)], [], [])]) for target in TARGETS)
        out.write(b"\0")
    gone = random.sample(TARGETS, 3)
    for target in TARGETS:
        if target not in gone:
            open(f"{folder}/{target}", "w").close()


def side(path):
    """What a side is now: its gate, and whether it is long."""
    try:
        with open(path, "rb") as file:
            gate = file.read(1)
        return f"{'long' if os.path.getsize(path) > 2**20 else 'short'}, gate {gate.hex() or 'missing'}"
    except FileNotFoundError:
        return "none"


def sides(folder):
    return "; ".join(side(f"{folder}/{name}") for name in SIDES)


def kill_once(dmk, folder):
    """Begins a run and kills its process group once a side has changed, and a moment later; says how the sides stand."""
    before = sides(folder)
    run = subprocess.Popen([dmk, "-s", "-j", "3"], cwd=folder, start_new_session=True)
    while sides(folder) == before and run.poll() is None:
        pass
    time.sleep(random.choice([0, random.uniform(0, 0.01)]))
    if run.poll() is None:
        os.killpg(run.pid, signal.SIGKILL)
    return "it had ended" if run.wait() != -signal.SIGKILL else sides(folder)


def listing(lister, folder):
    return subprocess.run([lister], cwd=folder, check=True, stdout=subprocess.PIPE).stdout


def fault_of(dmk, lister, folder, killed):
    wanted = listing(lister, folder)
    for _ in range(random.randint(1, 2)):
        killed[kill_once(dmk, folder)] += 1
        names = [line for line in listing(lister, folder).splitlines() if not line.startswith(b" ")]
        if len(names) != len(TARGETS):
            return "targets lost"
    ended = subprocess.run([dmk, "-s", "-j", "3"], cwd=folder, capture_output=True, timeout=120)
    if ended.returncode or ended.stdout or ended.stderr:
        return f"run: {ended}"
    if subprocess.run([dmk, "-q"], cwd=folder, timeout=120).returncode:
        return "something is left to be done"
    if not all(os.path.exists(f"{folder}/{target}") for target in TARGETS):
        return "a file is missing"
    return "" if listing(lister, folder) == wanted else "another listing"


def main():
    dmk, lister = (os.path.abspath(word) for word in sys.argv[1:3])
    trees = int(sys.argv[3]) if len(sys.argv) > 3 else 20
    killed, failed = collections.Counter(), 0
    for tree in range(trees):
        with tempfile.TemporaryDirectory(prefix="kill_openings-") as folder:
            make_tree(folder)
            fault = fault_of(dmk, lister, folder, killed)
        if fault:
            failed += 1
            print(f"FAILED tree {tree}: {fault}")
    for state, count in sorted(killed.items()):
        print(f"killed {count} times at: {state}")
    print(f"{trees - failed} passed, {failed} failed")
    sys.exit(failed > 0)


main()
