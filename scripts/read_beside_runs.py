"""Reads a state beside runs that write it: `dmk -n`, `dmk_state`, `dmk_tool targets` and `graph` in turn, while dmk makes 1,000 targets over
a state that grows until it is compacted. Each answer must be that of a state that was: no fault and no note, and each target that
was done at an earlier answer of the same build still done.

The last line is 'N passed, M failed', of answers. Usage: read_beside_runs.py [ANSWERS]
"""
import os
import pathlib
import subprocess
import sys
import tempfile

ROOT = pathlib.Path(__file__).resolve().parent.parent
DMK = ROOT / "crates/dmk/out/dmk"
LISTER = ROOT / "crates/dmk_state/out/dmk_state"
TOOL = ROOT / "crates/dmk_tool/out/dmk_tool"
COUNT = 1000


def environment():
    taken = ("MAKEFLAGS", "MAKELEVEL", "MFLAGS", "KEEP_STATE", "SUNPRO_DEPENDENCIES", "DMK_HOLDS")
    return {name: value for name, value in os.environ.items() if name not in taken}


def write_makefile(folder, wide):
    """Each command has a comment of `wide` bytes, so that the sides grow past the length at which a run compacts them."""
    lines = [".KEEP_STATE:", "all: " + " ".join(f"t{n}" for n in range(COUNT))]
    for n in range(COUNT):
        lines += [f"t{n}:", f"\t@: >t{n} # " + "x" * wide]
    (folder / "makefile").write_text("\n".join(lines) + "\n")


def ask(folder, *words):
    return subprocess.run(words, cwd=folder, env=environment(), capture_output=True, text=True, timeout=60)


def done_by_listing(answer):
    """The targets that dmk_state lists as done; None where the answer is none of a state."""
    if answer.returncode != 0 or answer.stderr:
        return None
    lines = answer.stdout.splitlines()
    names = [line.split(" ", 1) for line in lines if not line.startswith("    ")]
    if any(len(name) != 2 or name[0] not in ("begun", "done") for name in names):
        return None
    return {name for phase, name in names if phase == "done"}


def done_by_answer(answer):
    """The targets that `dmk_tool targets` says are done; None where the answer is none of a state."""
    if answer.returncode != 0 or answer.stderr:
        return None
    rows = [line.split("\t") for line in answer.stdout.splitlines()]
    if any(len(row) != 2 or row[0] not in ("begun", "done") for row in rows):
        return None
    return {name for phase, name in rows if phase == "done"}


def done_by_graph(answer):
    """The targets that `dmk_tool graph` draws as done; None where the answer is none of a state."""
    if answer.returncode != 0 or answer.stderr:
        return None
    lines = answer.stdout.splitlines()
    if lines[:3] != ['digraph ".make.state" {', "rankdir=LR", "node [shape=box]"] or lines[-1] != "}":
        return None
    nodes = [line.split(" ", 1) for line in lines[3:-1]]
    if any(node[1:] not in ([], ["[color=orange]"]) for node in nodes):
        return None
    return {node[0].strip('"') for node in nodes if len(node) == 1}


def done_by_plan(answer):
    """The targets that `dmk -n` doesn't list; None where the answer is none of a state."""
    if answer.returncode != 0 or answer.stderr:
        return None
    lines = answer.stdout.splitlines()
    wanted = {line.split()[1][1:] for line in lines if line.startswith(": >t")}
    if len(wanted) != len(lines):
        return None
    return {f"t{n}" for n in range(COUNT)} - wanted


def read_beside(folder, build, answers, readers):
    """Asks in turn until the build ends or there are enough answers. How many were right, and which were wrong."""
    right, wrong, known = 0, [], set()
    while build.poll() is None and right + len(wrong) < answers:
        words, meaning = readers[(right + len(wrong)) % len(readers)]
        answer = ask(folder, *words)
        done = meaning(answer)
        if done is None or not known <= done:
            missing = sorted(known - done)[:5] if done is not None else None
            wrong.append((words[-1], answer.returncode, answer.stderr[:200], len(answer.stdout), missing))
        else:
            right += 1
            known = done
    return right, wrong


def sides(folder):
    return [(folder / name).read_bytes()[:21] for name in (".make.state", ".make.state.2") if (folder / name).exists()]


def main():
    answers = int(sys.argv[1]) if len(sys.argv) > 1 else 200
    readers = [((str(DMK), "-n"), done_by_plan), ((str(LISTER),), done_by_listing),
               ((str(TOOL), "targets"), done_by_answer), ((str(TOOL), "graph"), done_by_graph)]
    right, wrong, compactions = 0, [], 0
    with tempfile.TemporaryDirectory() as work:
        rounds = 0
        while right + len(wrong) < answers:
            folder = pathlib.Path(work) / f"build{rounds}"
            folder.mkdir()
            write_makefile(folder, 2000)
            rounds += 1
            build = subprocess.Popen([DMK, "-s", "-j", "4"], cwd=folder, env=environment())
            fine, faults = read_beside(folder, build, answers - right - len(wrong), readers)
            if build.wait() != 0:
                faults.append(("the run", build.returncode, "", 0, None))
            compactions += (folder / ".make.state.2").exists()
            right += fine
            wrong += faults
    for fault in wrong:
        print("FAILED", fault)
    print(f"{rounds} builds, {compactions} with a compaction")
    failed = len(wrong) + (compactions < rounds)
    print(f"{right} passed, {failed} failed")
    sys.exit(failed != 0)


main()
