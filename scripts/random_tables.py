#!/usr/bin/env python3
"""Variables of makefiles beside GNU make: random_tables.py [SEED [LISTS]]

Random lists of definitions, `define`, `undefine`, `export` and `unexport`, with an environment, a command line and at times `-e`,
are read by GNU make, and what it then says of each name, its origin, its flavor, its text, its value and what of it reaches a
recipe, are the answers that `word_rows` has to have. Without a GNU make nothing is asked, and that is printed. The last line is
'N passed, M failed'.
"""
import os
import pathlib
import random
import re
import subprocess
import sys

PROGRAM = pathlib.Path(__file__).resolve().parent.parent / "crates/word_rows/out/word_rows"
NAMES = ["a", "b", "c", "d-e", "CC"]  # A text refers to names behind its own alone.
SIGNS = ["=", ":=", "::=", "?=", "+=", "!="]
COMMANDS = {"echo p  q": "p q", "printf 'p$$q'": "p$$q", "echo": ""}  # What each writes.
FAULTS = {r"empty variable name": "no-name", r"(e\d)": "told:"}


def spelled(data):
    return "".join(c if 32 < ord(c) < 127 and c not in "\\{}" else f"\\{ord(c):02x}" for c in data) or "nothing"


def referred(name):
    return random.choice(NAMES[NAMES.index(name) + 1 :] or ["none"])


def text(name):
    parts = ["x", "y", " ", "$$", "(z)", "", "", f"$({referred(name)})", f"$(words $({referred(name)}) w)", f"$(origin {referred(name)})", f"$(flavor {name})"]
    return "".join(random.choices(parts, k=random.choice([0, 1, 1, 2, 3])))


def value(name, sign):
    """A definition's text. What is expanded where it stands says something at times, or ends the reading."""
    if sign == "!=":
        return random.choice(list(COMMANDS)).replace("$", "$$")
    said = random.choice(["$(info said)", "$(error e1)" if random.random() < 0.1 else ""]) if sign in (":=", "::=") and random.random() < 0.2 else ""
    return said + text(name)


def statement():
    """A statement, and the lines of a `define`."""
    name = random.choice(NAMES)
    words = "".join(random.choices(["", "", "override ", "export ", "override export "], [6, 6, 4, 2, 1])[0])
    spelling = random.choices([name, f"$(if x,{name})", f"$(if x, {name} )", "$(none)"], [40, 2, 0, 0.2])[0]
    kind = random.random()
    if kind < 0.6:
        sign = random.choice(SIGNS)
        return f"{words}{spelling} {sign} {value(name, sign)}", None
    if kind < 0.7:
        sign = random.choice([*SIGNS, ""])
        lines = [value(name, sign), *([] if sign == "!=" else random.choices(["l", "", text(name)], k=random.choice([0, 0, 1, 2])))]
        blanks = random.choice(["", "", "$(if x, )"])
        return f"{words}define {spelling}{blanks} {sign}".rstrip(), "\n".join(lines)
    if kind < 0.8:
        return f"{words}undefine {spelling}{random.choice(['', '  '])}", None
    names = " ".join(random.choices(NAMES, k=random.choice([1, 1, 2])))
    return random.choice(["export ", "unexport "]) + random.choices([names, f"$(if x, {names} )", "", "$(none)"], [8, 2, 1, 0.5])[0], None


def setting():
    environment = {name: text(name) for name in NAMES if random.random() < 0.25}
    names = [name for name in NAMES if name != "CC" and random.random() < 0.2]
    given = []  # GNU make reads them before it has what is built in.
    for name in names:
        sign = random.choice(["=", "=", ":=", "+=", "?="])
        given.append(name + sign + (random.choice(["", "x", "y  z", "$$"]) if sign == ":=" else text(name).strip()))
    return environment, random.random() < 0.3, given, [statement() for _ in range(random.randint(1, 7))]


def makefile(statements, names):
    lines = []
    for it, body in statements:
        lines += [it, *([] if body is None else [body, "endef"]), "$(info <<>>)"]
    for name in names:
        for asked in (f"$(origin {name})", f"$(flavor {name})", f"$(value {name})", f"$({name})"):
            lines.append(f"$(info [[{asked}]])")
    return "\n".join([*lines, "$(info <<>>)", "all:;@env -0\n"])


def outcome(said):
    """The answer to a statement, by what GNU make says there."""
    lines = said.split("\n")[:-1]
    answers = []
    for line in lines:
        fault = re.fullmatch(r"/dev/stdin:\d+: \*\*\* (.*)\.  Stop\.", line)
        if not fault:
            answers.append("info:" + spelled(line))
            continue
        found, name = next((found, name) for pattern, name in FAULTS.items() if (found := re.fullmatch(pattern, fault[1])))
        return " ".join([*answers, name + found[1] if name.endswith(":") else name])
    return " ".join([*answers, "taken"])


def shell_asked(it, body):
    """What a statement asks the shell, in front of its answer."""
    found = re.search(r"(?<![:+?])!=\s*(.*)", it)
    if not found:
        return ""
    command = (body if it.split("define")[0] != it and body is not None else found[1]).replace("$$", "$")
    return f"shell:{spelled(command)} "


def row(title, environment, is_first, given, statements, names=None):
    """A row with all that GNU make answers of a list of statements."""
    names = names or NAMES
    run = subprocess.run(["make", *(["-e"] if is_first else []), "-f", "/dev/stdin", *given], input=makefile(statements, names).encode(),
                         env={"PATH": os.environ["PATH"], **environment}, stdout=subprocess.PIPE, stderr=subprocess.STDOUT, check=False)
    parts = run.stdout.decode().split("<<>>\n")
    rows = [f"row {title}", *(["environment-first"] if is_first else [])]
    rows.append("default CC = cc")
    for name, it in environment.items():  # A built-in definition meets it where GNU make has one.
        rows.append(f"environment{'-override' if is_first and name == 'CC' else ''} {name} = {spelled(it)}")
    rows += [f"shell {spelled(command)} = {spelled(written)}" for command, written in COMMANDS.items()]
    rows += [f"argument {spelled(it)} > taken" for it in given]
    for (it, body), said in zip(statements, parts):
        asked = "" if "empty variable name" in said else shell_asked(it, body)
        rows.append(f"take {spelled(it)}{'' if body is None else ' ' + spelled(body)} > {asked}{outcome(said)}")
    if len(parts) != len(statements) + 2:
        return "\n".join(rows) + "\n"
    told = re.findall(r"\[\[(.*?)\]\]\n", parts[-2], re.S)
    passed = dict(it.split("=", 1) for it in parts[-1].split("\0") if it)
    for place, name in enumerate(names):
        origin, flavor, written, comes_to = told[4 * place : 4 * place + 4]
        rows += [f"expand $(origin\\20{name}) > {spelled(origin)}", f"expand $(flavor\\20{name}) > {spelled(flavor)}",
                 f"expand $(value\\20{name}) > {spelled(written)}", f"expand $({name}) > {spelled(comes_to)}",
                 f"environment {name} > {spelled(passed[name]) if name in passed else 'hidden'}"]
    return "\n".join(rows) + "\n"


def main():
    random.seed(int(sys.argv[1]) if len(sys.argv) > 1 else 1)
    if b"GNU Make" not in subprocess.run("make --version", shell=True, capture_output=True).stdout:
        print("no GNU make: nothing is compared\n1 passed, 0 failed")
        return 0
    rows = [row(f"list {place}", *setting()) for place in range(int(sys.argv[2]) if len(sys.argv) > 2 else 2000)]
    return subprocess.run([PROGRAM], input="\n".join(rows).encode(), check=False).returncode


if __name__ == "__main__":
    sys.exit(main())
