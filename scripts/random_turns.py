"""Random makefiles with `.POOL`, `.CONSOLE` and recipes that fail or are killed, run by dmk: whether recipes take their turns.

`python3 scripts/random_turns.py [DMK] [FIRST] [COUNT]`: COUNT makefiles (30) from seed FIRST (1), by the built program or the one of the
path DMK. Each is run from nothing with -j 1, 4 and 16, with and without -k and state, below GNU make 4.3 or whatever `make` is, and, ended in
mid-run by SIGINT or SIGKILL, once more to its end. Each recipe writes a line at its begin and at its end; by these lines no more of a pool run at
once than its line says, a console recipe runs alone, and no more recipes than -j says. What has to be made is made, once, and no run takes longer
than a minute. The last line is 'N passed, M failed'; the status is 1 where M isn't 0.
"""
import os
import random
import shutil
import signal
import subprocess
import sys
import tempfile
import time

ROOT = os.path.dirname(os.path.dirname(os.path.abspath(__file__)))
SECONDS = 180


class Fault(Exception):
    """What a run may not do."""


class Tree:
    """A makefile of some targets, by a seed."""

    def __init__(self, seed):
        it = random.Random(seed)
        names = ["t%d" % number for number in range(it.randint(6, 24))]
        self.needs = {name: it.sample(names[:at], min(at, it.choice([0, 0, 1, 2]))) for at, name in enumerate(names)}
        self.ends = {name: it.choices(["", "; exit 1", "; kill -9 $$$$"], [30, it.choice([0, 1, 3]), it.choice([0, 1])])[0] for name in names}
        self.times = {name: it.choice([0, 0.01, 0.03, 0.1]) for name in names}
        left = names[:]
        it.shuffle(left)
        self.pools = []
        for _ in range(it.randint(0, 3)):
            members, left = left[:it.randint(1, 8)], left[it.randint(1, 8):]
            left = [name for name in left if name not in members]
            self.pools.append((it.choice([1, 1, 2, 3]), members))
        self.console = it.sample(names, it.choice([0, 1, 2, 4]) % len(names))
        self.names = names

    def text(self, state):
        lines = [".KEEP_STATE:"] if state else []
        lines += ["all: " + " ".join(self.names)]
        lines += [".POOL: %d %s" % (most, " ".join(members)) for most, members in self.pools]
        lines += [".CONSOLE: " + " ".join(self.console)] if self.console else []
        for name in self.names:
            recipe = "@echo b $@ >>log; sleep %s; echo e $@ >>log%s" % (self.times[name], self.ends[name] or "; echo >$@")
            lines += ["%s: %s ; %s" % (name, " ".join(self.needs[name]), recipe)]
        return "\n".join(lines) + "\n"

    def fails(self):
        """The targets that fail, and those that stand on one."""
        failed = set()
        for name in self.names:
            if self.ends[name] or failed.intersection(self.needs[name]):
                failed.add(name)
        return failed


def check(tree, lines, jobs):
    """Whether recipes that began and ended so took their turns. One that was ended with dmk has no end."""
    running, begun = [], []
    for line in lines:
        what, name = line.split()
        if what == "e":
            running.remove(name)
            continue
        if running and (name in tree.console or running[-1] in tree.console):
            raise Fault("%s began beside %s" % (name, running))
        running.append(name)
        begun.append(name)
        if len(running) > jobs:
            raise Fault("%d run at once" % len(running))
        for most, members in tree.pools:
            if len(set(members).intersection(running)) > most:
                raise Fault("more than %d of %s run: %s" % (most, members, running))
    if len(begun) != len(set(begun)):
        raise Fault("one is made twice")
    return begun


def lines_of_log():
    if not os.path.exists("log"):
        return []
    with open("log", encoding="ascii") as file:
        return file.read().splitlines()


def run(words, end=None):
    """The status. With an end the run gets this signal after so many seconds."""
    child = subprocess.Popen(words, stdin=subprocess.DEVNULL, stdout=subprocess.DEVNULL, stderr=subprocess.DEVNULL, start_new_session=True)
    try:
        if end:
            time.sleep(end[1])
            child.send_signal(end[0])
        return child.wait(SECONDS)
    except subprocess.TimeoutExpired:
        os.killpg(child.pid, signal.SIGKILL)
        child.wait()
        raise Fault("a run took more than %d seconds: %s, behind %s" % (SECONDS, " ".join(words), lines_of_log()[-4:])) from None


def try_whole(tree, words, jobs, goes_on):
    status = run(words)
    begun, failed = set(check(tree, lines_of_log(), jobs)), tree.fails()
    wanted = {name for name in tree.names if not failed.intersection(tree.needs[name])}
    if (status != 0) != bool(failed):
        raise Fault("status %d" % status)
    if begun - wanted or ((goes_on or not failed) and begun != wanted):
        raise Fault("began %s in place of %s" % (sorted(begun), sorted(wanted)))
    if failed and not goes_on and jobs == 1 and len(begun.intersection(failed)) != 1:
        raise Fault("went on behind a failure")


def try_ended(tree, words, jobs, it):
    run(words, (it.choice([signal.SIGINT, signal.SIGKILL]), it.choice([0.02, 0.1, 0.3])))
    # What recipes of an ended run leave in the log isn't that of the next one.
    time.sleep(0.3)
    os.rename("log", "log.before") if os.path.exists("log") else None
    run(words + ["-k"])
    check(tree, lines_of_log(), jobs)
    for name in set(tree.names) - tree.fails():
        if not os.path.exists(name):
            raise Fault("%s isn't made" % name)


def try_tree(program, seed, told):
    tree, it = Tree(seed), random.Random(seed)
    for jobs in (1, 4, 16):
        for state in (False, True):
            ways = [("", True), ("-k", True), ("make", False), ("ended", False)]
            for way, _ in ways:
                folder = tempfile.mkdtemp(prefix="turns-")
                os.chdir(folder)
                try:
                    with open("makefile", "w", encoding="ascii") as file:
                        file.write(tree.text(state))
                    with open("above.mk", "w", encoding="ascii") as file:
                        file.write("all: ; +@%s --posix -k\n" % program)
                    words = [program, "--posix", "-j%d" % jobs]
                    if way == "make":
                        try_whole(tree, ["make", "-sk", "-j%d" % jobs, "-f", "above.mk"], jobs, True)
                    elif way == "ended":
                        try_ended(tree, words, jobs, it)
                    else:
                        try_whole(tree, words + way.split(), jobs, way == "-k")
                    told[True] += 1
                except Fault as fault:
                    told[False] += 1
                    print("seed %d, -j%d%s, %s: %s" % (seed, jobs, ", state" if state else "", way or "whole", fault), flush=True)
                finally:
                    os.chdir("/")
                    shutil.rmtree(folder, ignore_errors=True)


def main():
    program = os.path.abspath(sys.argv[1] if len(sys.argv) > 1 else os.path.join(ROOT, "crates", "dmk", "out", "dmk"))
    first, count = (int(word) for word in (sys.argv[2:4] + ["1", "30"][len(sys.argv[2:4]):]))
    told = {True: 0, False: 0}
    for seed in range(first, first + count):
        try_tree(program, seed, told)
    print("%d passed, %d failed" % (told[True], told[False]))
    sys.exit(1 if told[False] else 0)


main()
