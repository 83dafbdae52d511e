#!/usr/bin/env python3
"""Measures the processor time of a process and of all that it starts, by crate: cost.py PID [BUDGETS]

It looks at /proc each second until it gets SIGTERM (or the process is gone), and then prints a table of processor
seconds: of each crate the time of its proof, of its tests and of its edits, then what belongs to no crate, then the
sum. Below stands a line for each figure that is over its budget by half; BUDGETS has lines 'CRATE KIND SECONDS', with
the kinds of the table's head.

A process belongs to the crate that its --crate-name names, and its kind shows in its words, its folder and what started it;
where it has no such word it belongs to what started it. What ended between two looks is in the times of the children
that its parent has waited for, so no time is lost.
"""
import collections
import os
import re
import signal
import sys

KINDS = ("proof", "tests", "edits")
OTHER = "(no crate)"
TICK = os.sysconf("SC_CLK_TCK")

# What /proc says of a process: who started it, its own time and that of ended children, in ticks.
Seen = collections.namedtuple("Seen", "parent own children")


def text_of(path):
    try:
        with open(path, encoding="utf-8", errors="replace") as file:
            return file.read()
    except OSError:
        return ""


def processes():
    """Returns what /proc shows of each process, by its number and the time at which it was started."""
    found = {}
    for number in filter(str.isdigit, os.listdir("/proc")):
        _, _, rest = text_of(f"/proc/{number}/stat").rpartition(") ")
        words = rest.split()
        if len(words) > 19:
            user, system, of_children, system_of_children = map(int, words[11:15])
            found[int(number), words[19]] = Seen(int(words[1]), user + system, of_children + system_of_children)
    return found


def below(found, root):
    """Returns the processes that the root has started, each behind what started it."""
    by_parent = collections.defaultdict(list)
    for process, seen in found.items():
        by_parent[seen.parent].append(process)
    order = [process for process in found if process[0] == root]
    for process in order:
        order += by_parent[process[0]]
    return [process for process in order if process[0] != os.getpid()]


def label_of(number, above, known):
    """Returns the crate and the kind of a process, by its words and folder and the label of what started it.

    One that has ended has no words, and keeps the label by which it is known.
    """
    words = text_of(f"/proc/{number}/cmdline").split("\0")
    if words == [""]:
        return known or above
    try:
        folder = os.readlink(f"/proc/{number}/cwd")
    except OSError:
        folder = ""
    tries_edits = any(it.endswith(("/planted.py", "/must_not_compile.sh")) for it in words) or "/rt-edit" in folder
    kind = "edits" if above[1] == "edits" or tries_edits else "tests" if "--test" in words else "proof"
    if "--crate-name" in words[:-1]:
        return words[words.index("--crate-name") + 1], kind
    return above[0], "edits" if kind == "edits" else above[1]


class Ledger:
    """Ticks by crate and kind, and what the last look saw of each process."""

    def __init__(self, root):
        self.root, self.ticks, self.labels = root, collections.Counter(), {}
        self.last, self.ended = {}, {}

    def look(self):
        """Notes what has been used since the last look. Returns whether the process is still there."""
        found = processes()
        order = below(found, self.root)
        by_number = {process[0]: process for process in order}
        self.ended = collections.defaultdict(list)
        for process, seen in self.last.items():
            if process not in found:
                self.ended[seen.parent].append(process)
        for process in order:
            above = self.labels.get(by_number.get(found[process].parent), (OTHER, ""))
            self.labels[process] = label_of(process[0], above, self.labels.get(process))
            was = self.last.get(process, Seen(0, 0, 0))
            self.ticks[self.labels[process]] += found[process].own - was.own
            self.settle(process, found[process].children - was.children)
        self.last = {process: found[process] for process in order}
        return bool(order)

    def settle(self, process, more):
        """Notes what ended children used behind the last look at them, of the time that their parent has waited for."""
        ended = self.ended[process[0]]
        more -= sum(map(self.noted, ended))
        self.ticks[self.labels[(ended or [process])[0]]] += max(more, 0)

    def noted(self, process):
        """Returns what has been noted of an ended process and of those below it that have ended with it."""
        return self.last[process].own + self.last[process].children + sum(map(self.noted, self.ended[process[0]]))

    def seconds(self):
        """Returns the seconds of each kind by crate; what has no kind stands under the crate alone."""
        rows = collections.defaultdict(lambda: dict.fromkeys(KINDS, 0.0))
        for (crate, kind), ticks in self.ticks.items():
            rows[crate if kind else OTHER][kind or KINDS[0]] += ticks / TICK
        return rows


def table(rows):
    """Returns the lines of the table: a row a crate, what belongs to none, the sum."""
    other = sum(rows.pop(OTHER, {}).values())
    lines = [f"{'processor seconds':24}" + "".join(f"{kind:>9}" for kind in (*KINDS, "all"))]
    for crate, times in sorted(rows.items()):
        lines.append(f"{crate:24}" + "".join(f"{times[kind]:9.1f}" for kind in KINDS) + f"{sum(times.values()):9.1f}")
    whole = [sum(times[kind] for times in rows.values()) for kind in KINDS]
    lines.append(f"{OTHER:24}{'':27}{other:9.1f}")
    lines.append(f"{'sum':24}" + "".join(f"{it:9.1f}" for it in whole) + f"{sum(whole) + other:9.1f}")
    return lines


def over_budget(rows, text):
    """Returns a line for each budget that is passed by half."""
    found = []
    for crate, kind, seconds in re.findall(r"(?m)^(\w+) (\w+) (\d+)$", text):
        used = rows[crate][kind] if crate in rows and kind in KINDS else 0.0
        if used > 1.5 * int(seconds):
            found.append(f"over its budget: {crate}, {kind}: {used:.0f} s of {seconds} s")
    return found


def main(root, budgets=None):
    ended = [False]

    def end(*_):
        ended[0] = True

    signal.signal(signal.SIGTERM, end)
    signal.signal(signal.SIGALRM, lambda *_: None)
    signal.setitimer(signal.ITIMER_REAL, 1, 1)
    ledger = Ledger(int(root))
    while ledger.look() and not ended[0]:
        signal.pause()
    ledger.look()
    rows = ledger.seconds()
    late = over_budget(rows, text_of(budgets) if budgets else "")
    print(*table(rows), *late, sep="\n")


if __name__ == "__main__":
    main(*sys.argv[1:])
