#!/usr/bin/env python3
"""Depfiles of random names beside GCC: random_depfiles.py [SEED [NAMES]]

Sources include files of random names, 100 each, and GCC writes what they name; the names of the files are the answers that
`word_rows` has to have. No name ends in a backslash, which GCC writes as it writes one that goes on. Without a GCC nothing is
asked, and that is printed. The last line is 'N passed, M failed'.
"""
import os
import pathlib
import random
import shutil
import subprocess
import sys
import tempfile

PROGRAM = pathlib.Path(__file__).resolve().parent.parent / "crates/word_rows/out/word_rows"
BYTES = b"ab. \t#$:\\" * 4 + bytes(b for b in range(33, 127) if chr(b) not in '/"') + b"\x7f\xc3\xa9\xff"
random.seed(int(sys.argv[1]) if len(sys.argv) > 1 else 1)


def names(count):
    """So many names of files, each once."""
    found = {}
    while len(found) < count:
        name = bytes(random.choices(BYTES, k=random.randint(1, 12)))
        if not name.endswith(b"\\") and name not in (b".", b"..", b"t.c"):
            found[name] = None
    return list(found)


def written(folder, included):
    """What GCC writes for a source that includes these files."""
    for name in included:
        open(os.path.join(os.fsencode(folder), name), "w", encoding="ascii").close()
    with open(os.path.join(folder, "t.c"), "wb") as source:
        source.writelines(b'#include "%s"\n' % name for name in included)
    said = subprocess.run(["gcc", "-MM", "-MP", "t.c"], cwd=folder, stdout=subprocess.PIPE, stderr=subprocess.DEVNULL, check=True)
    return said.stdout


def spelled(data):
    return "".join(chr(b) if 32 < b < 127 and chr(b) not in "\\{}" else f"\\{b:02x}" for b in data)


if shutil.which("gcc") is None:
    print("no gcc: nothing is compared\n1 passed, 0 failed")
    sys.exit()
rows, left = [], names(int(sys.argv[2]) if len(sys.argv) > 2 else 2000)
while left:
    included, left = left[:100], left[100:]
    with tempfile.TemporaryDirectory() as room:
        text = written(room, included)
    wanted = " ".join(map(spelled, [b"t.c", *included]))
    rows.append(f"row source {len(rows)}\ndepfile {spelled(text)} > {wanted}\n")
sys.exit(subprocess.run([PROGRAM], input="\n".join(rows).encode(), check=False).returncode)
