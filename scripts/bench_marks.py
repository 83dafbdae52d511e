#!/usr/bin/env python3
"""What marks cost a run with nothing to do: python3 scripts/bench_marks.py [DMK [ROUNDS [TARGETS]]]

Trees of dmk_tree.py, each twice: with a state of version 2 for `dmk -r`, and with one of version 4, each file with its mark, for
`dmk --posix -r`. Beside them GNU make and, where it is installed, ninja. In each round (21) each is run once; printed are
the least processor time in milliseconds, and the most memory of a run more under GNU time. Nothing is tested.
"""
import os
import shutil
import subprocess
import sys
import tempfile

import dmk_tree
from state_file import batch, done_marked, file, header, marks

KINDS = {"flat": dmk_tree.flat, "layers": dmk_tree.layers, "hidden": dmk_tree.hidden}
NOWHERE = [(os.POSIX_SPAWN_OPEN, 1, "/dev/null", os.O_WRONLY, 0), (os.POSIX_SPAWN_DUP2, 1, 2)]


def write_marked_state(kind, nodes):
    with open(".make.state", "wb") as out:
        out.write(header(1, 4))
        for target, prerequisites, names in nodes:
            of = [file(dmk_tree.TIME, 0)] * (1 + len(prerequisites) + len(names))
            commands = [dmk_tree.command(kind, target, prerequisites)]
            out.write(batch([done_marked(target, commands, names, prerequisites, marks(None, of))]))
        out.write(b"\0")


def write_trees(kind, nodes, folder):
    for profile in ("strict", "wide"):
        os.makedirs(f"{folder}/{profile}")
        os.chdir(f"{folder}/{profile}")
        dmk_tree.write_files(nodes)
        dmk_tree.write_makefiles(kind, nodes)
        dmk_tree.write_state(kind, nodes)
        dmk_tree.write_ninja(kind, nodes)
        dmk_tree.write_ninja_log(kind, nodes)
    write_marked_state(kind, nodes)


def milliseconds(words):
    process = os.posix_spawnp(words[0], words, os.environ, file_actions=NOWHERE)
    _, ended, used = os.wait4(process, 0)
    if os.waitstatus_to_exitcode(ended):
        sys.exit(f"{' '.join(words)}: status {os.waitstatus_to_exitcode(ended)}")
    return 1000 * (used.ru_utime + used.ru_stime)


def kilobytes(words):
    if not shutil.which("time"):
        return 0
    told = subprocess.run(["time", "-q", "-f", "%M", *words], stdout=subprocess.DEVNULL, stderr=subprocess.PIPE, check=False)
    return int(told.stderr.split()[-1])


def measure(runs, rounds):
    least = {}
    for _ in range(rounds):
        for name, (folder, words) in runs.items():
            os.chdir(folder)
            took = milliseconds(words)
            least[name] = min(least.get(name, took), took)
    memory = {}
    for name, (folder, words) in runs.items():
        os.chdir(folder)
        memory[name] = kilobytes(words)
    return least, memory


def main():
    dmk = os.path.abspath(sys.argv[1] if len(sys.argv) > 1 else "bin/dmk")
    rounds = int(sys.argv[2]) if len(sys.argv) > 2 else 21
    targets = int(sys.argv[3]) if len(sys.argv) > 3 else 10000
    with tempfile.TemporaryDirectory() as room:
        for kind, made in KINDS.items():
            folder = f"{room}/{kind}"
            write_trees(kind, made(targets), folder)
            strict, wide = f"{folder}/strict", f"{folder}/wide"
            runs = {"strict": (strict, [dmk, "-r"]), "wide": (wide, [dmk, "--posix", "-r"]), "make": (strict, ["make", "-rR"])}
            if shutil.which("ninja"):
                runs["ninja"] = (strict, ["ninja"])
            least, memory = measure(runs, rounds)
            told = ", ".join(f"{name} {least[name]:.1f} ms {memory[name] / 1024:.1f} MB" for name in runs)
            ratio = least["wide"] / least["strict"]
            more = memory["wide"] / max(memory["strict"], 1)
            print(f"{kind}, {targets} targets: {told}; wide to strict: {ratio:.2f}, memory {more:.2f}", flush=True)
        os.chdir("/")


if __name__ == "__main__":
    main()
