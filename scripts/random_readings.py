#!/usr/bin/env python3
"""Makefiles read beside GNU make: random_readings.py [SEED [TEXTS]]

Random texts of nested conditionals, definitions, `define`, `undefine`, `export`, rules, lines behind a TAB and lines that say what
variables are there, at times with a fault, are read by GNU make. What it says on the way, at which line it ends and why, what it
then says of each name, and the recipes that it has by then, are the answers that `word_rows` has to have. Without a GNU make
nothing is asked, and that is printed. The last line is 'N passed, M failed'.
"""
import os
import random
import re
import subprocess
import sys

sys.dont_write_bytecode = True

from random_tables import PROGRAM, spelled

NAMES = ["a", "b", "c", "d-e"]  # A text refers to names behind its own alone.
FAULTS = {
    r"empty variable name": "no-name",
    r"(e\d)": "told:",
    r"missing separator": "missing-separator",
    r"recipe commences before first target": "recipe-before-target",
    r"extraneous 'else'": "extraneous-else",
    r"extraneous 'endif'": "extraneous-endif",
    r"only one 'else' per conditional": "second-else",
    r"invalid syntax in conditional": "no-test",
    r"missing 'endef', unterminated 'define'": "missing-endef",
}


class Text:
    """A text as it is made, line by line."""

    def __init__(self):
        self.lines = []
        self.targets = 0
        self.unended = None

    def add(self, line):
        self.lines.append(line)

    def rule(self):
        self.targets += 1
        name = random.choices([f"t{self.targets}", f"$(if x,t{self.targets})", "$(nil)", ""], [12, 2, 1, 1])[0]
        told = f"$(info [[rule {name}]])" if "t" in name else "x"  # Behind no target GNU make expands nothing.
        self.add(f"{name}: {told}{random.choice(['', '', f'; echo s{self.targets}'])}")


def referred(name):
    return random.choice(NAMES[NAMES.index(name) + 1 :] if name in NAMES else NAMES) if name != NAMES[-1] else "none"


def words(name):
    """What a definition or a test may have, over the names behind this one."""
    parts = ["x", "y", " ", "$$", "", "", f"$({referred(name)})", f"$({referred(name)})", f"$(words $({referred(name)}) w)", f"$(origin {referred(name)})"]
    return "".join(random.choices(parts, k=random.choice([0, 1, 1, 2, 3])))


def said():
    name = random.choice(NAMES)
    return f"$(info [[{random.choice([words(''), f'$({name})', f'$(origin {name}) $(flavor {name}) $(value {name})'])}]])"


def joined(line):
    """The line, at times parted in two."""
    if " " in line and random.random() < 0.1:
        front, behind = line.split(" ", 1)
        return f"{front} \\\n {behind}"
    return line


def definition():
    name = random.choice(NAMES)
    sign = random.choice(["=", ":=", "::=", "?=", "+="])
    fault = "$(error e1)" if sign == ":=" and random.random() < 0.02 else ""
    front = random.choices(["", "override ", "export ", "private "], [20, 2, 2, 1])[0]
    return f"{front}{name} {sign} {fault}{words(name)}"


def body(text, name):
    """A `define` whose lines look like others."""
    text.add(f"define {name}{random.choice(['', ' =', ' :=', ' +=', ' ?='])}")
    for line in random.choices(["endif", "else", "ifeq (x,y)", "", f"\t{words(name)}", words(name), "z = 1", "t: u"], k=random.choice([0, 1, 2, 3])):
        text.add(line)
    text.add(random.choice(["endef", "  endef", "endef # z"]))


def test(may_fail=True):
    one, other = words(""), random.choice(["", "x", "y", words(""), words("")])
    if may_fail and random.random() < 0.01:  # Behind an `else` GNU make only warns of such a test.
        return random.choice(["ifeq x", "ifdef a b", "ifeq (a b)", "ifneq", "ifeq (x,$(error e2))"])
    name = random.choice([*NAMES, *NAMES, f"$(if x,{random.choice(NAMES)})", "$(none)", "none"])
    return random.choice([f"ifeq ({one},{other})", f"ifneq ({one} , {other})", f"ifeq \"{one}\" '{other}'", f"ifneq '{one}' '{other}'",
                          f"ifdef {name}", f"ifndef {name} # {one}", f"ifdef {name}"])


def directive(line):
    front = random.choices(["", "  ", "\t"], [20, 3, 1 if "$" not in line else 0])[0]
    return front + joined(line) if not front.startswith("\t") else front + line


def conditional(text, depth):
    text.add(directive(test()))
    block(text, depth + 1)
    while random.random() < 0.4:
        text.add(directive("else " + test(False)))
        block(text, depth + 1)
    for _ in range(random.choices([0, 1, 2], [10, 12, 0.2])[0]):
        text.add(directive("else"))
        block(text, depth + 1)
    text.add(directive(random.choice(["endif", "endif", "endif # x"])))


def other(text):
    kind = random.random()
    if kind < 0.4:
        text.rule()
        for _ in range(random.choice([0, 0, 1, 2])):
            text.add(random.choice(["\techo r", f"\t{random.choice(NAMES)} = q", "", "# x", "\techo r \\\n\tr", "\tendif", "\telse", "\tifdef a"]))
    elif kind < 0.55:
        text.add(f"\t{random.choice(NAMES)} {random.choice(['=', ':=', '+='])} t{random.choice(['x', 'y'])}")
    elif kind < 0.7:
        text.add(random.choice([f"undefine {random.choice(NAMES)}", f"export {random.choice(NAMES)}", f"unexport {random.choice(NAMES)}", f"override undefine {random.choice(NAMES)}"]))
    elif kind < 0.75:
        text.add(random.choice(["", "# $(info no)", "  ", "\t"]))
    elif kind < 0.79:
        text.add(random.choices(["else", "endif", "= x", "$(none) = x", "x", "$(if x,x y)", "$(error e3)", "\techo x", "$(none)"], [1, 1, 1, 1, 1, 1, 1, 1, 4])[0])
    else:
        text.add(said())


def block(text, depth):
    for _ in range(random.randint(0, 4 if depth else 8)):
        kind = random.random()
        if kind < 0.3:
            text.add(joined(definition()))
        elif kind < 0.36:
            body(text, random.choice(NAMES))
        elif kind < 0.6 and depth < 4:
            conditional(text, depth)
        elif kind < 0.8:
            text.add(said())
        else:
            other(text)


def made():
    text = Text()
    block(text, 0)
    if random.random() < 0.04:
        text.unended = sum(line.count("\n") + 1 for line in text.lines) + 1
        text.add("ifdef a")
        text.add(said())
    elif random.random() < 0.02:
        text.add("define a\nx")
    return text


def asked(text):
    lines = [*text.lines, "$(info <<>>)"]
    for name in NAMES:
        for it in (f"$(origin {name})", f"$(flavor {name})", f"$(value {name})", f"$({name})"):
            lines.append(f"$(info [[{it}]])")
    goals = [f"t{number + 1}" for number in range(text.targets)]
    written = "\n".join([*lines, "$(info <<>>)", ".DEFAULT: ; @:", ""])
    return subprocess.run(["make", "-rRn", "--no-print-directory", "-f", "/dev/stdin", *(goals or ["none"])], input=written.encode(),
                          env={"PATH": os.environ["PATH"]}, stdout=subprocess.PIPE, stderr=subprocess.STDOUT, check=False).stdout.decode()


def outcome(text, parts):
    """The answer to the reading, by what GNU make says on the way."""
    answers = ["info:" + spelled(it) for it in re.findall(r"\[\[.*?\]\]", parts[0], re.S)]
    fault = re.search(r"^/dev/stdin:(\d+): \*\*\* (.*)\.  Stop\.$", parts[-1], re.M)
    if not fault:
        return " ".join([*answers, "read"])
    if fault[2] == "missing 'endif'" and text.unended:
        return " ".join([*answers, f"missing-endif:{text.unended}"])
    if fault[2] == "missing 'endif'":  # GNU make tells the last line, ours is that of the conditional.
        return None
    found, name = next((found, name) for pattern, name in FAULTS.items() if (found := re.fullmatch(pattern, fault[2])))
    return " ".join([*answers, f"{fault[1]}:{name}{found[1] if name.endswith(':') else ''}"])


def row(title, text):
    """A row with all that GNU make answers of a text; none where what it tells can't be compared."""
    parts = asked(text).split("<<>>\n")
    answer = outcome(text, parts)
    if answer is None:
        return None
    rows = [f"row {title}", f"read {spelled(''.join(it + chr(10) for it in text.lines))} > {answer}"]
    if answer.endswith("read"):
        told = re.findall(r"\[\[(.*?)\]\]\n", parts[1], re.S)
        for place, name in enumerate(NAMES):
            origin, flavor, written, comes_to = told[4 * place : 4 * place + 4]
            rows += [f"expand $(origin\\20{name}) > {spelled(origin)}", f"expand $(flavor\\20{name}) > {spelled(flavor)}",
                     f"expand $(value\\20{name}) > {spelled(written)}", f"expand $({name}) > {spelled(comes_to)}"]
        recipes = re.sub(r"^(make: .*|:)\n", "", parts[2], flags=re.M)
        rows.append(f"recipes > {spelled(recipes)}")
    return "\n".join(rows) + "\n"


def main():
    random.seed(int(sys.argv[1]) if len(sys.argv) > 1 else 1)
    if b"GNU Make" not in subprocess.run("make --version", shell=True, capture_output=True).stdout:
        print("no GNU make: nothing is compared\n1 passed, 0 failed")
        return 0
    rows = []
    while len(rows) < (int(sys.argv[2]) if len(sys.argv) > 2 else 2000):
        found = row(f"text {len(rows)}", made())
        rows += [found] if found else []
    return subprocess.run([PROGRAM], input="\n".join(rows).encode(), check=False).returncode


if __name__ == "__main__":
    sys.exit(main())
