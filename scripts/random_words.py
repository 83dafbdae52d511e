#!/usr/bin/env python3
"""GNU make's functions beside GNU make: random_words.py [SEED [MAKEFILES]]

Random calls are asked of GNU make, 500 in each makefile, and its values are the answers that `word_rows` has to have. Without a
GNU make nothing is asked, and that is printed. The last line is 'N passed, M failed'.
"""
import os
import pathlib
import random
import subprocess
import sys

PROGRAM = pathlib.Path(__file__).resolve().parent.parent / "crates/word_rows/out/word_rows"
random.seed(int(sys.argv[1]) if len(sys.argv) > 1 else 1)


def text(letters, most):
    """A function that makes texts of these bytes, up to this length."""
    return lambda: "".join(random.choices(letters, k=random.randint(0, most))).encode("latin-1")


def number():
    return random.choice([b"%d", b" %d\t", b"0%d"]) % random.randint(1, 6)


NAMES, SPACED, PLAIN = text("ab./. \t/", 14), text("ab \t\n\v\f\r\b\x0e\x1c\x7f\xe9 ", 14), text("aab ", 14)
PATTERN, PATTERNS, WORDS = text("ab%\\%\\", 6), text("ab%\\ b%a ", 30), text("ab \t\n%\\ ", 16)
FUNCTIONS = {  # Words are sorted without bytes above 127, of which GNU make's order is the machine's.
    "subst": [text("aab ", 3), text("abx ", 3), PLAIN], "patsubst": [PATTERN, PATTERN, WORDS], "filter": [PATTERNS, WORDS],
    "findstring": [text("aab ", 4), PLAIN], "filter-out": [PATTERNS, WORDS], "sort": [text("abAB_. \x7f", 20)], "strip": [SPACED],
    "words": [SPACED], "word": [number, SPACED], "wordlist": [number, number, SPACED], "firstword": [SPACED],
    "lastword": [SPACED], "dir": [NAMES], "notdir": [NAMES], "suffix": [NAMES], "basename": [NAMES],
    "addsuffix": [text("ab /", 3), NAMES], "addprefix": [text("ab /", 3), NAMES], "join": [NAMES, NAMES],
}


def asked(calls):
    """The values of calls, as GNU make says them."""
    lines, given = ["all:;@:"], {b"PATH": os.environb[b"PATH"]}
    for place, (name, arguments) in enumerate(calls):
        given.update((b"A%d.%d" % (place, n), argument) for n, argument in enumerate(arguments))
        values = ",".join(f"$(value A{place}.{n})" for n in range(len(arguments)))
        lines.append(f"$(info <[$({name} {values})]>)")
    said = subprocess.run(["make", "-f", "-"], input="\n".join(lines).encode(), env=given, stdout=subprocess.PIPE, check=True)
    return [value.split(b"]>")[0] for value in said.stdout.split(b"<[")[1:]]


def spelled(data):
    return "".join(chr(b) if 32 < b < 127 and chr(b) not in "\\{}" else f"\\{b:02x}" for b in data) or "nothing"


if b"GNU Make" not in subprocess.run("make --version", shell=True, capture_output=True).stdout:
    print("no GNU make: nothing is compared\n1 passed, 0 failed")
    sys.exit()
rows = []
for _ in range(int(sys.argv[2]) if len(sys.argv) > 2 else 10):
    calls = [(name, [argument() for argument in FUNCTIONS[name]]) for name in random.choices(list(FUNCTIONS), k=500)]
    for (name, arguments), value in zip(calls, asked(calls), strict=True):
        rows.append(f"row call {len(rows)}\n{' '.join([name, *map(spelled, arguments)])} > {spelled(value)}\n")
sys.exit(subprocess.run([PROGRAM], input="\n".join(rows).encode(), check=False).returncode)
