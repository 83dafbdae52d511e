"""Refuses memory to the built programs: the Nth call for it alone, or each from the Nth on, for each N up to 150 and then every
37th, until none is refused. Each run has to end by itself with a status that the manual names, say where that status is 2 that memory
or a worker was wanting, and leave a state that can be listed; the run that follows with memory has to make all that is missing.

The last line is 'N passed, M failed', of runs. Usage: refused_growths.py [RUNS AT ONCE]
"""
import collections
import concurrent.futures
import itertools
import os
import pathlib
import shutil
import subprocess
import sys
import tempfile

from state_file import batch, begun, done, failed, header

ROOT = pathlib.Path(__file__).resolve().parent.parent
DMK = ROOT / "crates/dmk/out/dmk"
LISTER = ROOT / "crates/dmk_state/out/dmk_state"
TOOL = ROOT / "crates/dmk_tool/out/dmk_tool"
SECONDS = 20
# So many runs of each program have to end for want of memory: with fewer, the library refuses nothing.
LEAST = 50
# A thread that has no memory to start with is told as a worker that can't be started.
WORDS_OF_WANT = ("out of memory", "dmk: cannot start a worker")

MAKEFILE = """.KEEP_STATE:
.SUFFIXES: .c .o
include more
all: one.o two.o three.o sum left
.c.o:
\t: compiles; cat $< h.h >$@; echo "$@: h.h" >"$${SUNPRO_DEPENDENCIES%% *}"
sum: one.o .WAIT two.o three.o
\t-false
\t@cat $(OBJECTS) >sum
left: one.c
\techo left >left; echo said
"""
MORE = """OBJECTS = $(NAMES:=.o)
NAMES = one two
NAMES += three
"""
SOURCES = {"one.c": "1\n", "two.c": "2\n", "three.c": "3\n", "h.h": "h\n", "makefile": MAKEFILE, "more": MORE}
MADE = {"one.o": "1\nh\n", "two.o": "2\nh\n", "three.o": "3\nh\n", "sum": "1\nh\n2\nh\n3\nh\n", "left": "left\n"}

# Of version 1 as it is read, and of version 2 with names enough.
OLD_STATE = b"\x01DMKSTATE\x01\0" + header(1)[11:] + batch([begun("one.o"), begun("old")]) + b"\0"
NAMES = [f"t{number}" for number in range(40)]
STATE = header(1) + batch([done(name, [f"cc {name}"], [f"{name}.h"], [f"{name}.c"]) for name in NAMES])
STATE += batch([failed("one.o", 1), begun("sum")]) + b"\0"


def environment(more):
    """Nothing of the caller's but PATH: how much memory a run wants, and so which call is refused, goes by the environment too."""
    return {"PATH": os.environ.get("PATH", "/usr/bin:/bin"), "LC_ALL": "C", **more}


def run(command, folder, more=None):
    """The status, None where the time is over, and what was printed on standard error."""
    try:
        ended = subprocess.run(
            command, cwd=folder, env=environment(more or {}), stdin=subprocess.DEVNULL, stdout=subprocess.PIPE,
            stderr=subprocess.PIPE, timeout=SECONDS,
        )
        return ended.returncode, ended.stderr.decode(errors="replace")
    except subprocess.TimeoutExpired:
        return None, f"it didn't end within {SECONDS} s"


def with_refusals(library, command, folder, way, number):
    """Beside the answer, whether any memory was refused."""
    note = folder.with_suffix(".refused")
    answer = run(command, folder, {"LD_PRELOAD": str(library), way: str(number), "REFUSED_NOTE": str(note)})
    was_refused = note.exists()
    note.unlink(missing_ok=True)
    return *answer, was_refused


def make_tree(folder, state):
    folder.mkdir()
    for name, text in SOURCES.items():
        (folder / name).write_text(text)
    if state:
        (folder / ".make.state").write_bytes(state)


def faults_of_end(status, said, statuses):
    if status not in statuses:
        yield f"status {status}"
    if status == 2 and not any(word in said for word in WORDS_OF_WANT):
        yield "another word than 'out of memory'"


def faults_behind(folder):
    """What is wrong of the state, and of a run that has its memory."""
    status, said = run([LISTER], folder)
    if status != 0:
        yield f"the state can't be listed: {status}, {said}"
    status, said = run([DMK, "-s", "-j", "2"], folder)
    if status != 0:
        yield f"the next run ends with {status}: {said}"
    for name, text in MADE.items():
        there = folder / name
        if not there.exists() or there.read_text() != text:
            yield f"{name} isn't what it is to be"
    status, _ = run([DMK, "-q"], folder)
    if status != 0:
        yield "something is still to be made"


def build_refused(library, folder, way, number, state, words):
    make_tree(folder, state)
    status, said, was_refused = with_refusals(library, [DMK, *words], folder, way, number)
    faults = list(faults_of_end(status, said, (0, 1, 2))) + list(faults_behind(folder))
    if status == 1 and " was stopped or not started" not in said and "failed" not in said:
        faults.append("status 1, and no recipe failed")
    return status, said, was_refused, faults


def listing_refused(library, folder, way, number, state, words):
    make_tree(folder, state)
    status, said, was_refused = with_refusals(library, words, folder, way, number)
    faults = list(faults_of_end(status, said, (0, 2)))
    if (folder / ".make.state").read_bytes() != state:
        faults.append("the state was changed")
    return status, said, was_refused, faults


SWEEPS = [
    ("dmk", "a build of one worker, no state", build_refused, b"", ["-s", "-j", "1"]),
    ("dmk", "a build of two, an old state", build_refused, OLD_STATE, ["-k", "-j", "2"]),
    ("dmk", "a listing", build_refused, STATE, ["-n"]),
    ("dmk_state", "a listing", listing_refused, STATE, [LISTER]),
    ("dmk_tool", "a query", listing_refused, STATE, [TOOL, "query", "t1.h"]),
    ("dmk_tool", "a database", listing_refused, STATE, [TOOL, "compdb"]),
    ("dmk_tool", "stale targets", listing_refused, STATE, [TOOL, "targets", "--stale"]),
    ("dmk_tool", "a listing as JSON", listing_refused, STATE, [TOOL, "list", "--json"]),
    ("dmk_tool", "a graph", listing_refused, STATE, [TOOL, "graph", "--hidden"]),
    ("dmk_tool", "causes", listing_refused, STATE, [TOOL, "why", *NAMES, "sum"]),
    ("dmk_tool", "what would be removed", listing_refused, STATE, [TOOL, "clean", "-n"]),
]


def numbers():
    return itertools.chain(range(1, 151), itertools.count(187, 37))


class Tally:
    def __init__(self):
        self.passed = 0
        self.failed = 0
        self.runs = collections.Counter()
        self.wanted = collections.Counter()

    def add(self, sweep, way, number, answer):
        program, title = sweep[:2]
        status, said, _, faults = answer
        self.runs[program] += 1
        self.wanted[program] += status == 2 and "out of memory" in said
        if not faults:
            self.passed += 1
            return
        self.failed += 1
        if self.failed <= 10:
            print(f"FAILED {program}, {title}, {way}={number}: {'; '.join(faults)}\n{said[:500]}", flush=True)

    def close(self):
        for program in ("dmk", "dmk_state", "dmk_tool"):
            print(f"{program}: {self.runs[program]} runs, {self.wanted[program]} ended for want of memory")
            if self.wanted[program] < LEAST:
                print(f"FAILED {program}: at least {LEAST} have to end so")
                self.failed += 1


def swept(library, work, sweep, way, pool, at_once):
    """Each run with its number, until memory is refused to none of a handful."""
    _, _, call, state, words = sweep
    upward = numbers()
    while True:
        some = list(itertools.islice(upward, at_once))
        folders = [work / f"run{number}" for number in some]
        answers = list(pool.map(lambda number, folder: call(library, folder, way, number, state, words), some, folders))
        for number, folder, answer in zip(some, folders, answers):
            shutil.rmtree(folder)
            yield number, answer
        if not any(was_refused for _, _, was_refused, _ in answers):
            return


def library_in(work):
    library = work / "refused.so"
    source = pathlib.Path(__file__).with_suffix(".c")
    try:
        subprocess.run(["cc", "-O1", "-shared", "-fPIC", "-o", library, source], check=True)
    except (OSError, subprocess.CalledProcessError):
        return None
    return library


def main():
    at_once = int(sys.argv[1]) if len(sys.argv) > 1 else 4
    tally = Tally()
    with tempfile.TemporaryDirectory() as name, concurrent.futures.ThreadPoolExecutor(at_once) as pool:
        work = pathlib.Path(name)
        library = library_in(work)
        if library is None:
            print("note: no cc is there: no memory was refused\n0 passed, 0 failed")
            return 0
        for sweep in SWEEPS:
            for way in ("REFUSED_AT", "REFUSED_FROM"):
                for number, answer in swept(library, work, sweep, way, pool, at_once):
                    tally.add(sweep, way, number, answer)
    tally.close()
    print(f"{tally.passed} passed, {tally.failed} failed")
    return 1 if tally.failed else 0


if __name__ == "__main__":
    sys.exit(main())
