#!/usr/bin/env python3
"""Expansions beside GNU make: random_expansions.py [SEED [TEXTS]]

Random texts over random variables are expanded by GNU make, 20 for each set of variables, and what it says, and then gives or
refuses, are the answers that `word_rows` has to have. What both do differently on purpose is left out (GUARANTEES.md of
mk_functions and mk_pieces): computed names without an end, called variables that refer to themselves, and `call` of what binds
or chooses. Without a GNU make nothing is asked, and that is printed. The last line is 'N passed, M failed'.
"""
import os
import pathlib
import random
import re
import subprocess
import sys

PROGRAM = pathlib.Path(__file__).resolve().parent.parent / "crates/word_rows/out/word_rows"
random.seed(int(sys.argv[1]) if len(sys.argv) > 1 else 1)

PURE = {  # By the number of arguments.
    1: ["strip", "sort", "words", "firstword", "lastword", "dir", "notdir", "suffix", "basename"],
    2: ["findstring", "filter", "filter-out", "addsuffix", "addprefix", "join", "word"], 3: ["subst", "patsubst", "wordlist"],
}
PLAIN = ["p0", "p1", "p2", "p3"]  # They refer to each other as they like, and are never called.
CALLED = ["c0", "c1", "c2"]  # They call later ones alone.
BOUND = ["v", "w", "p1"]
FAULTS = {
    r"Recursive variable '(.*)' references itself \(eventually\)": "refers-to-itself:",
    r"insufficient number of arguments \(\d+\) to function '(.*)'": "too-few:",
    r"non-numeric first argument to '(.*)' function: '.*'": "first-is-no-number:",
    r"non-numeric second argument to '(.*)' function: '.*'": "second-is-no-number:",
    r"first argument to '(.*)' function must be greater than 0": "first-is-0:",
    r"invalid first argument to '(.*)' function: '.*'": "first-is-0:",
    r"unterminated (?:variable reference|call to function '.*': missing '.')()": "not-closed",
    r"(.*)": "told:",
}


def bracketed(text):
    return f"$({text})" if random.random() < 0.8 else f"${{{text}}}"


def words():
    parts = ["a", "b", "%", ".c", "/", " ", "  ", ",", "(a,b)", "{a}", "$$", "ab a", "1", "2", "\t", ":", "="]
    return "".join(random.choices(parts, k=random.choice([0, 1, 1, 2, 2, 3, 4])))


def reference():
    name = random.choice([*PLAIN, *PLAIN, "v", "w", "1", "2", "none"])
    kind = random.random()
    if kind < 0.2 and len(name) == 1:
        return "$" + name
    if kind < 0.35:
        return bracketed(name + random.choice([":a=b", ":%.c=%", ":a%=%", ":=x", ":b=", ":a"]))
    if kind < 0.45:
        return bracketed(random.choice(["p$(words $v)", "$(none)p0", "p$1", "$(firstword p2 w):a=$w"]))
    return bracketed(name)


def call(depth, later):
    """A call of a function, or of a variable that comes later."""
    inner = lambda: text(depth - 1, later)
    kind = random.random()
    if kind < 0.4:
        count = random.choice([1, 1, 2, 2, 3])
        name = random.choice(PURE[count])
        arguments = [inner() for _ in range(count + random.choice([0] * 9 + [-1, 1]))]
        if name in ("word", "wordlist") and random.random() < 0.8:
            arguments[: count - 1] = random.choices(["1", "2", " 3 ", "$(words a b)", "0"], [6, 6, 2, 3, 1], k=count - 1)
        return bracketed(name + " " + ",".join(arguments))
    if kind < 0.6:
        return bracketed(random.choice(["if ", "or ", "and "]) + ",".join(inner() for _ in range(random.randint(1, 3))))
    if kind < 0.72:
        return bracketed(f"foreach {random.choice(BOUND)},{inner()},{inner()}")
    if kind < 0.86:
        name = random.choice([*later, *later, "none", *random.choices(sum(PURE.values(), []))])
        return bracketed(",".join(["call " + name, *(inner() for _ in range(random.randint(0, 3)))]))
    if kind < 0.94:
        name = random.choice([*PLAIN, *CALLED, "v", "1", "none", inner()])
        return bracketed(random.choice(["value ", "origin ", "flavor "]) + name)
    return bracketed(random.choices(["info ", "warning ", "error "], [6, 3, 1])[0] + inner())


def text(depth, later):
    count = random.choice([0, 1, 1, 1, 2, 2, 2, 3])
    kinds = random.choices([words, reference, lambda: call(depth, later)], [3, 3, 4 if depth else 0], k=count)
    return "".join(kind() for kind in kinds)


def variables():
    """Names, signs and texts."""
    found = [(name, random.choice(["=", "=", ":="]), text(1, CALLED)) for name in PLAIN]
    return found + [(name, "=", text(2, CALLED[place + 1 :])) for place, name in enumerate(CALLED)]


def spelled(data):
    return "".join(c if 32 < ord(c) < 127 and c not in "\\{}" else f"\\{ord(c):02x}" for c in data) or "nothing"


def defined(name, sign, value):
    """A definition whose text isn't read as a line of a makefile, nor expanded."""
    return f"define {name} {sign}\n{value.replace('$', '$$') if sign == ':=' else value}\nendef"


def messages(said):
    for line in said.split("\n")[:-1]:
        warned = re.fullmatch(r"/dev/stdin:\d+: (.*)", line)
        yield "warning:" + spelled(warned[1]) if warned else "info:" + spelled(line)


def fault_of(why):
    found, name = next((found, name) for pattern, name in FAULTS.items() if (found := re.fullmatch(pattern, why)))
    return name + spelled(found[1]) if name.endswith(":") else name


def answered(said):
    """The answer of a row, by what GNU make says of a text."""
    value = re.fullmatch(r"(.*?)<\[(.*)\]>\n", said, re.S)
    fault = re.fullmatch(r"(.*?)/dev/stdin:\d+: \*\*\* (.*)\.  Stop\.\n", said, re.S)
    if not value and not fault:
        sys.exit(f"GNU make says {said!r}")
    said, last = (value[1], spelled(value[2])) if value else (fault[1], fault_of(fault[2]))
    return " ".join([*messages(said), last])


def asked(known, texts):
    """What GNU make says of each text. A fault ends it, and the next is asked behind it."""
    answers = []
    while len(answers) < len(texts):
        lines = [defined(*it) for it in known]
        for it in texts[len(answers) :]:
            lines += [defined("T.ext", "=", it), "$(info <<>>)$(info <[$(T.ext)]>)"]
        run = subprocess.run(["make", "-f", "/dev/stdin"], input="\n".join([*lines, "all:;@:\n"]).encode(),
                             env={"PATH": os.environ["PATH"]}, stdout=subprocess.PIPE, stderr=subprocess.STDOUT, check=False)
        answers += map(answered, run.stdout.decode().split("<<>>\n")[1:])
    return answers


if b"GNU Make" not in subprocess.run("make --version", shell=True, capture_output=True).stdout:
    print("no GNU make: nothing is compared\n1 passed, 0 failed")
    sys.exit()
rows = []
for _ in range((int(sys.argv[2]) if len(sys.argv) > 2 else 2000) // 20):
    known = variables()
    texts = [text(3, CALLED) for _ in range(20)]
    setup = "\n".join(f"file {name} {sign} {spelled(value)}" for name, sign, value in known)
    for it, answer in zip(texts, asked(known, texts), strict=True):
        rows.append(f"row text {len(rows)}\n{setup}\nexpand {spelled(it)} > {answer}\n")
sys.exit(subprocess.run([PROGRAM], input="\n".join(rows).encode(), check=False).returncode)
