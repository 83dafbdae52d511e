"""Says how far a build is: build_progress.py LANES PROGRAM.. reads what `rt ci` prints of the programs and the crates below them.

For each crate that is done it prints `12 of 41 crates, 9 min, about 11 left`, on a terminal in place; and what fails or waits
as it was told. What is left is the schedule of so many lanes, longest chain first, by the seconds of scripts/budgets.txt, at the
pace at which the crates have ended so far. build_progress.py --crates PROGRAM.. prints the crates' names instead, lowest first.
"""
import re
import sys
import time

# What a proof takes that has no line in the budgets, in seconds.
OTHERWISE = 30


def uses_of(programs):
    """Returns for the programs and the crates below them what each stands on, lowest first."""
    rows, found = {}, {}
    with open("crates.txt", encoding="utf-8") as lines:
        for line in lines:
            name, colon, below = line.partition("#")[0].partition(":")
            if colon:
                rows[name.split()[0]] = below.split()

    def add(crate):
        below = [it for it in rows[crate] if it in rows]
        for it in below:
            if it not in found:
                add(it)
        found.setdefault(crate, below)

    for program in programs:
        add(program)
    return found


def budgets():
    """Returns the processor seconds of each crate's proof."""
    with open("scripts/budgets.txt", encoding="utf-8") as lines:
        rows = [line.partition("#")[0].split() for line in lines]
    return {row[0]: int(row[2]) for row in rows if len(row) == 3 and row[1] == "proof"}


def schedule(uses, seconds, lanes):
    """Returns when each crate's proof ends."""
    behind = {}
    for crate in reversed(uses):
        behind[crate] = seconds[crate] + max((behind[it] for it in uses if crate in uses[it]), default=0)
    left, running, ends, now = sorted(uses, key=lambda it: -behind[it]), {}, {}, 0
    while left or running:
        ready = [crate for crate in left if all(it in ends for it in uses[crate])]
        for crate in ready[: lanes - len(running)]:
            left.remove(crate)
            running[crate] = now + seconds[crate]
        first = min(running, key=running.get)
        ends[first] = now = running.pop(first)
    return ends


class Progress:
    def __init__(self, lanes, uses):
        self.lanes, self.uses, self.started = lanes, uses, time.monotonic()
        known = budgets()
        self.seconds = {crate: known.get(crate, OTHERWISE) for crate in uses}
        # When each crate that was proved in this run has ended.
        self.proved, self.kept = {}, set()

    def ended(self, crate, is_kept):
        if is_kept:
            self.kept.add(crate)
            self.seconds[crate] = 0
        else:
            self.proved[crate] = time.monotonic() - self.started

    def line(self):
        done, now = len(self.proved) + len(self.kept), time.monotonic() - self.started
        told = f"{done} of {len(self.uses)} crates, {round(now / 60)} min"
        if done == len(self.uses):
            return told
        ends = schedule(self.uses, self.seconds, self.lanes)
        planned = sum(ends[crate] for crate in self.proved)
        pace = sum(self.proved.values()) / planned if planned else 1
        left = max(ends.values()) * pace - now
        return f"{told}, about {max(1, round(left / 60))} left"


def main(lanes, programs):
    uses = uses_of(programs)
    if lanes == "--crates":
        print(*uses, sep="\n")
        return
    progress = Progress(int(lanes), uses)
    begin, end = ("\r\033[K", "") if sys.stdout.isatty() else ("", "\n")

    def say(text, end=end):
        print(f"{begin}{text}", end=end, flush=True)

    say(progress.line())
    for line in sys.stdin:
        ended = re.match(r"rt: (\w+) (proved$|is kept)", line)
        if ended and ended[1] in uses:
            progress.ended(ended[1], ended[2] != "proved")
            say(progress.line())
        elif re.match(r"rt: .*(NOT PROVED|FAILED|waiting|note:|disk|killed)", line):
            say(line.rstrip(), "\n")
    print(end="" if end else "\n")


main(sys.argv[1], sys.argv[2:])
