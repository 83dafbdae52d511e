#!/usr/bin/env python3
"""`-o` beside GNU make: random_old_files.py [FIRST [LAST]], the numbers of random trees (0 to 399)

A tree has files of random times, some missing; its makefile has rules in one line and in two, order-only prerequisites and a phony
name. Of `-n` with one or two files by `-o`, and with goals at times, GNU make and dmk have to print the same lines of recipes, in
any order, and of `-n` and `-q` to answer the same status. Without a GNU make nothing is compared, and that is printed. The last line
is 'N passed, M failed'.
"""
import os
import pathlib
import random
import shutil
import subprocess
import sys
import tempfile

PROGRAM = pathlib.Path(__file__).resolve().parent.parent / "crates/dmk/out/dmk"
MAKES = [["make", "-rR"], [str(PROGRAM), "--posix", "-r"]]
SOURCES = ["s0", "s1", "s2"]
EPOCH = 1_700_000_000


def rule(chance, target, later):
    """Returns the lines of a rule, which stands on names of later ones and on sources."""
    prerequisites = chance.sample(later + SOURCES, chance.randint(0, 3))
    bar = f" | {chance.choice(SOURCES)}" if chance.random() < 0.2 else ""
    if chance.random() < 0.15:
        return f"{target}: {' '.join(prerequisites)}\n{target}:{bar}\n\techo {target}\n"
    return f"{target}: {' '.join(prerequisites)}{bar}\n\techo {target} $^\n"


def makefile(chance, targets):
    rules = [rule(chance, target, targets[place + 1 :]) for place, target in enumerate(targets)]
    phony = f".PHONY: {chance.choice(targets)}\n" if chance.random() < 0.3 else ""
    return f"all: {' '.join(chance.sample(targets, chance.randint(1, len(targets))))}\n{''.join(rules)}{phony}"


def plant(chance, folder, targets):
    """Makes the tree: each source, and of ten targets seven."""
    (folder / "makefile").write_text(makefile(chance, targets), encoding="utf-8")
    for name in SOURCES + [it for it in targets if chance.random() < 0.7]:
        (folder / name).touch()
        os.utime(folder / name, (EPOCH + chance.randint(0, 9),) * 2)


def asked(folder, make, words):
    done = subprocess.run(make + words, cwd=folder, capture_output=True, text=True, check=False)
    return done.returncode, sorted(line for line in done.stdout.splitlines() if line.startswith("echo"))


def differs(number):
    """Returns the words whose answers differ in the tree of this number, if there are any."""
    chance = random.Random(number)
    targets = [f"t{place}" for place in range(chance.randint(3, 9))]
    folder = pathlib.Path(tempfile.mkdtemp(prefix="old-files-"))
    try:
        plant(chance, folder, targets)
        old = chance.sample(targets + SOURCES, chance.randint(1, 2))
        goals = chance.sample(targets, chance.randint(1, 2)) if chance.random() < 0.4 else []
        words = [word for name in old for word in ("-o", name)] + goals
        for option in ("-n", "-q"):
            answers = [asked(folder, make, [option, *words]) for make in MAKES]
            if answers[0] != answers[1]:
                return " ".join([option, *words])
    finally:
        shutil.rmtree(folder)
    return None


def main(words):
    if b"GNU Make" not in subprocess.run("make --version", shell=True, capture_output=True).stdout:
        print("no GNU make: nothing is compared\n1 passed, 0 failed")
        return 0
    first, last = [*map(int, words), *[0, 399][len(words) :]]
    failed = 0
    for number in range(first, last + 1):
        if found := differs(number):
            print(f"tree {number}: {found}")
            failed += 1
    print(f"{last + 1 - first - failed} passed, {failed} failed")
    return 1 if failed else 0


if __name__ == "__main__":
    sys.exit(main(sys.argv[1:]))
