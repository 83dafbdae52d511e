"""Checks of copies of a crate, and what they say of each planted body."""
import collections
import re
import subprocess
import sys
import tempfile
import time

from .copies import write_copy
from .toolchain import rt, rtlib

GOAL = re.compile(r"note: \S+:\d+:\d+: (.*) \(`(\S+)`\)(.*)")
ERROR = re.compile(r"(?:\./)?(proofs/\S+):\d+:\d+: error: (?:`(\S+)`: )?(.*)")
OF_NAMES = re.compile(r"has no field|is not in scope|has no `|has no name|\(nearest: |was not admitted|depends on")

# What a check finds of a body. kind: 'proved'; 'false', 'open', 'limit' or 'answer' where a goal isn't proved; 'names' where
# a stored proof only names what is gone; 'no body' where there is none to judge; 'nothing' where the check gave no verdict.
# goals: the goals that aren't proved.
Finding = collections.namedtuple("Finding", "kind goals why")
# What one check printed: its text, its status, and the seconds of each function.
Ran = collections.namedtuple("Ran", "text status seconds")


UNUSABLE = "a library's kept work could not be used"


def nothing(why):
    return Finding("nothing", set(), why)


def no_body(why):
    return Finding("no body", set(), why)


def run_check(crate, room, flags, kept, only, log):
    """Checks the functions that are named of a copy of the crate, over the kept work of a folder."""
    words = crate.words([*flags, *(it for name in only for it in ("--only", name))], keeps=False)
    how = {"cwd": room, "stdin": subprocess.DEVNULL, "stderr": subprocess.STDOUT, "errors": "replace"}
    text, seconds, last = [], {}, time.monotonic()
    words = [*rtlib.guarded(), rtlib.RATTLE, "check", *words, "--incremental", kept, "--progress"]
    with subprocess.Popen(words, stdout=subprocess.PIPE, **how) as ran:
        for line in ran.stdout:
            text.append(line)
            log.write(line)
            if done := re.match(r"checked (\S+), \d+ of", line):
                seconds[done[1].rpartition("::")[2]] = time.monotonic() - last
                last = time.monotonic()
    return Ran("".join(text), ran.returncode, seconds)


def found(goals, errors):
    """Returns what the unproved goals (matches of GOAL) and the refused proofs (matches of ERROR) of one body say."""
    own = [it for it in errors if not OF_NAMES.search(it[3])]
    names = {it[2] for it in goals + own if it[2]}
    if goals:
        by_values = [it for it in goals if "at which this goal is false" in it[3]]
        plain = [it for it in goals if "gave up" not in it[3]]
        first = (by_values or plain or goals)[0]
        kind = "false" if by_values else "open" if plain else "limit"
        return Finding(kind, names, f"{first[2]}: {first[1].removeprefix('it is not proved that ')}")
    first = (own or errors)[0]
    return Finding("answer" if own else "names", names, f"{first[2]}: {first[3]}"[:200])


def rows_of(text):
    """Returns by a function's last name what the check says of it: its words and the goals that are printed above them."""
    rows, goals = collections.defaultdict(list), []
    for line in text.split("\n"):
        if goal := GOAL.match(line):
            goals.append(goal)
        elif line.startswith("fn "):
            symbol, _, words = line[3:].partition(": ")
            rows[symbol.rpartition("::")[2]].append((words, goals))
            goals = []
    return rows


def errors_in(text, is_own):
    return [it for it in map(ERROR.match, text.split("\n")) if it and is_own(it[1])]


def judge(plants, text):
    """Gives each plant what the check's text says of it."""
    rows = rows_of(text)
    for plant in plants:
        if len(rows[plant.name]) != 1:
            plant.finding = nothing("the check has no line for it")
            continue
        ((words, goals),) = rows[plant.name]
        errors = errors_in(text, lambda path, plant=plant: f"/{plant.name}/" in path)
        if words == "proved" or words.startswith("proved, "):
            plant.finding = Finding("proved", set(), "")
        elif re.match(r"not proved|no proof", words) and (goals or errors):
            plant.finding = found(goals, errors)
        else:
            plant.finding = nothing(words[:200])


def not_compiled(lines, text):
    """Returns the plants in which the compiler found an error, each with its first one."""
    at = re.findall(r"(?m)^(?:\./)?(src/\S+\.rt):(\d+):\d+: error(.*)", text)
    return {lines[file, int(line)]: why for file, line, why in reversed(at) if (file, int(line)) in lines}


def try_beside(crate, source, plants, flags, kept, log):
    """Judges plants in one check. Those that don't compile are taken out and the rest is checked again."""
    left = list(plants)
    with tempfile.TemporaryDirectory(prefix="planted-") as room:
        while left:
            lines = write_copy(crate, source, room, left)
            ran = run_check(crate, room, flags, kept, [it.name for it in left], log)
            stale = rtlib.STALE.search(ran.text)
            if not stale and ran.status in (0, 1) and re.search(r"(?m)^only=\d+ ", ran.text):
                judge(left, ran.text)
                for it in left:
                    it.seconds = ran.seconds.get(it.name, 0.0)
                return
            wrong = {} if stale else not_compiled(lines, ran.text)
            why = f"no verdict (status {ran.status}): {ran.text.strip()[-200:]}"
            for it in left:
                it.finding = nothing(UNUSABLE if stale else why)
            for it, error in wrong.items():
                it.finding = no_body(f"it does not compile: error{error[:160]}")
            left = [it for it in left if it not in wrong] if wrong else []


def try_in_place(crate, texts, flags, kept, log):
    """Checks the whole crate with these texts in the place of its own: what `rt must-fail` does with an edit."""
    ran = rt.checked(crate, texts, flags, kept)
    print(ran.stdout, file=log, flush=True)
    lines = ran.stdout.rstrip("\n").split("\n")
    if unread := next((it for it in lines if rt.unread(it, texts)), ""):
        return no_body(f"the prover cannot read it: {unread[:160]}")
    if rtlib.STALE.search(ran.stdout):
        return nothing(UNUSABLE)
    if ran.returncode == 0:
        return Finding("proved", set(), "")
    goals = [it for it in map(GOAL.match, lines) if it]
    errors = errors_in(ran.stdout, lambda path: True)
    if ran.returncode != 1 or not lines[-1].startswith("logic=not-proved") or not goals + errors:
        return nothing(f"no verdict (status {ran.returncode}): {' '.join(lines[:3])[:200]}")
    return found(goals, errors)
