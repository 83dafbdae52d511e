#!/usr/bin/env python3
"""Holds the code to its sizes: sizes.py

A crate has at most 130 functions and 2,600 lines in src/, a function at most 40 lines of body and seven parameters, unless a line of
scripts/sizes.txt names it and says why; no `where` block of more than three lines stands twice. A line of sizes.txt that isn't
needed is a fault too. Prints a finding a line, and in its last line 'N passed, M failed'.
"""
import collections
import pathlib
import re
import sys

TOP = pathlib.Path(__file__).resolve().parent.parent
FUNCTIONS, LINES, BODY, PARAMETERS, WHERE = 130, 2600, 40, 7, 3
HEAD = re.compile(r"^( *)(?:pub(?:\(\w+\))? )?(?:const )?(?:unsafe )?fn (\w+)")
# What ends the head of a function: its body, or of a trait's method the clauses.
CLAUSE = re.compile(r"^ *(?:requires|ensures)\b")


class Function:
    """A function as it stands: its name, the lines of its head and of its body."""

    def __init__(self, name, head, body):
        self.name, self.head, self.body = name, head, body

    def parameters(self):
        """How many there are beside `self`."""
        text = "\n".join(line for line in self.head if not CLAUSE.match(line))
        at = text.index(self.name, text.index("fn ")) + len(self.name)
        if text[at] == "<":
            at = closed(text, at, "<", ">")
        inner = text[at + 1 : closed(text, at, "(", ")") - 1]
        parts, depth, part = [], 0, ""
        for place, letter in enumerate(inner):
            depth += letter in "([{<"
            depth -= letter in ")]}" or (letter == ">" and inner[place - 1] not in "-=")
            if letter == "," and depth == 0:
                parts.append(part)
                part = ""
            else:
                part += letter
        parts.append(part)
        return sum(1 for it in parts if it.strip() and not re.fullmatch(r"&?(?:'\w+ )?(?:mut )?self", it.strip()))

    def where(self):
        """The lines of its `where` block."""
        lines = [line.strip() for line in self.head]
        if "where" not in lines:
            return ()
        behind = lines[lines.index("where") + 1 :]
        return tuple(it for it in take_while(behind) if it)


def take_while(lines):
    """The lines up to the first clause or the body."""
    for line in lines:
        if CLAUSE.match(line) or line in ("{", ""):
            return
        yield line


def closed(text, at, opening, closing):
    """The place behind the bracket that closes the one at `at`."""
    depth = 0
    for place in range(at, len(text)):
        depth += text[place] == opening
        depth -= text[place] == closing and text[place - 1 : place + 1] not in ("->", "=>")
        if depth == 0:
            return place + 1
    raise ValueError(text)


def functions(lines):
    """The functions of a file that have a body."""
    found, place = [], 0
    while place < len(lines):
        began = HEAD.match(lines[place])
        if began:
            depth, name = began.group(1), began.group(2)
            end = place
            while end < len(lines) and lines[end] != depth + "{" and not opens(lines[end], depth) and not declared(lines, end, depth):
                end += 1
            if end < len(lines) and not declared(lines, end, depth):
                last = lines.index(depth + "}", end)
                found.append(Function(name, lines[place:end] + [lines[end][:-1]], lines[end + 1 : last]))
        place += 1
    return found


def opens(line, depth):
    """Whether a line of this depth ends in the brace that opens a body."""
    return line.startswith(depth) and not line.startswith(depth + " ") and line.endswith(" {")


def declared(lines, place, depth):
    """Whether a method ends here that has no body."""
    line = lines[place]
    return line.endswith(";") and not line.startswith(depth + " " * 5) or line.endswith("{}")


def named():
    """What sizes.txt names, by crate, file and function."""
    found = {}
    for line in (TOP / "scripts/sizes.txt").read_text(encoding="utf-8").splitlines():
        if line and not line.startswith("#"):
            what, colon, why = line.partition(": ")
            if not colon or not why.strip():
                sys.exit(f"scripts/sizes.txt: no reason: {line}")
            found[what] = why
    return found


def main():
    allowed, blocks, faults, good = named(), collections.defaultdict(list), [], 0
    needed = set()
    for crate in sorted((TOP / "crates").iterdir()):
        count = lines = 0
        for path in sorted((crate / "src").glob("**/*.rt")):
            text = path.read_text(encoding="utf-8").splitlines()
            lines += len(text)
            count += sum(1 for line in text if HEAD.match(line))
            for it in functions(text):
                what = f"{crate.name}/{path.name} {it.name}"
                if len(it.where()) > WHERE:
                    blocks[it.where()].append(what)
                body, parameters = len(it.body), it.parameters()
                if body > BODY or parameters > PARAMETERS:
                    needed.add(what)
                    if what not in allowed:
                        faults.append(f"{what}: {body} lines of body, {parameters} parameters")
                        continue
                good += 1
        if count > FUNCTIONS or lines > LINES:
            needed.add(crate.name)
            if crate.name not in allowed:
                faults.append(f"{crate.name}: {count} functions, {lines} lines")
                continue
        good += 1
    faults += [f"the same `where` block: {', '.join(places)}" for places in blocks.values() if len(places) > 1]
    faults += [f"scripts/sizes.txt: not needed: {what}" for what in allowed if what not in needed]
    for line in faults:
        print(line)
    print(f"{good} passed, {len(faults)} failed")
    sys.exit(1 if faults else 0)


if __name__ == "__main__":
    main()
