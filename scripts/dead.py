#!/usr/bin/env python3
"""Lists what nothing needs: dead.py [--lines]

Lemmas of proofs/ that nothing but dead lemmas and themselves names, libraries in crates.txt that no file of the crate names, and
what a crate exports that no other one names and docs/TRUST.md doesn't cite (laws aside, which are there to be read). Those that
wait for the next change of their crate are told apart. `--lines` shows the lines of each lemma, FILE FIRST LAST. Prints a finding
a line, and in its last line 'N passed, M failed': how many are needed, and how many aren't.
"""
import collections
import pathlib
import re
import sys

TOP = pathlib.Path(__file__).resolve().parent.parent
CRATES = TOP / "crates"
# What stands between two names in a definition or a proof.
BETWEEN = re.compile(r"[\s(){},;.:\[\]\"`]+")
# What ends a term that stands over several lines.
CLOSING = tuple("})]")
SIGNATURE = re.compile(r"^(?:pub )?([^\s:(){}]+) : ")
# What goes with the next change of its crate, since without it each crate above would be proved anew: lemmas by their file, exports
# by their crate. So does what the crates above are to name next, the calls that take a form of records. What isn't dead any more has
# to be taken out here.
WAITING = {
}
WAITING_EXPORTS = {
    "bl_log": {"Ranked", "lanes"},
    # Types of fields that others read.
    "bl_reading": {"End"},
    "jb_marks": {"Known", "MemorySights", "Placed", "is_same"},
    "jb_slots": {"Fifo", "dry"},
    # What a target alone has, behind its colon, is read by it.
    "mk_conditionals": {"Reading"},
    "mk_eval": {"MAX_INCLUDE_DEPTH"},
    "mk_functions": {"MAX_CALLS", "MAX_PIECES", "MAX_VALUE"},
    # What reads GNU makefiles is to name these next.
    "mk_gnu_eval": {"MAX_INCLUDE_DEPTH", "Progress"},
    "mk_gnu_items": {"Cause", "Oddity", "Refusal", "Refused", "items_of"},
    "mk_graph": {"distinct_names", "whole_plan"},
    "mk_macros": {"FUNCTIONS"},
    "mk_recipe": {"LineStatus", "Look", "Mark", "Prerequisite", "Told", "Verdict", "outcome"},
    "mk_seen": {"SeenFiles"},
    "mk_statements": {"Statement", "next_statement"},
    # Types of fields that others read.
    "mk_rule_lines": {"PoolCause", "PoolFault"},
    "mk_settings": {"Pools"},
    # What dmk_run is to tell behind a goal that nothing makes.
    "near_names": {"nearest"},
    "mk_wildcards": {"Brackets", "Element", "elements", "fits_name"},
    "row_files": {"hex_digit"},
    "st_disk": {"Call"},
    "st_file": {
        "MAX_SIDE_BYTES", "RecordSink", "Side", "every_side_has_a_reading", "every_side_has_a_reading_in", "new_header", "one_reading_in",
        "read_from", "read_log",
    },
    "st_marks": {"Marked", "append_marks"},
    "st_packed": {"append_kept", "room_after_kept"},
    "st_records": {"MAX_NAME_BYTES_IN_ONE", "MAX_RECORD_BYTES_IN_ONE"},
    "st_recovery": {
        "Chosen", "ChosenIn", "choose_from", "choose_from_in", "choose_in",
    },
}
EXPORT = re.compile(r"^pub use ((?:\w+::)+)(\{[^}]*\}|\w+);", re.MULTILINE)
USE = re.compile(r"\b(\w+)::(\{[^}]*\}|\w+)")
CITED = re.compile(r"`(?:\w+::)?(\w+)`")
# Names that a proof file gives because the checker asks for them: the answer to a goal, and a proof that is written whole.
ASKED = re.compile(r"^(?:pub )?[^\s:(){}]+ : (.*\bgoal\.|\{M : Type 1\} → statement M$)")


class Lemma(collections.namedtuple("Lemma", "file name first last")):
    """A lemma with the numbers of its first and last line, from 0."""

    def place(self):
        return f"{self.file.relative_to(TOP)}:{self.first + 1}"


def without_comment(line):
    return line.partition("--")[0] if line.startswith("--") or " -- " in line else line


def names_in(text):
    return set(filter(None, BETWEEN.split(text)))


def begins(line, name):
    """Whether a line is a clause of the lemma of this name."""
    return name is not None and re.match(re.escape(name) + r"(?![^\s(){}])", line)


def blocks_of(file):
    """Returns the parts of a proof file: (lemma or None, the names that the part holds). A lemma is its signature and what
    stands under it up to a line that begins with something else."""
    parts, name = [], None
    for number, line in enumerate(file.read_text(encoding="utf-8").split("\n")):
        signature = SIGNATURE.match(line)
        if signature and not ASKED.match(line):
            name = signature.group(1)
            parts.append((Lemma(file, name, number, number), []))
        elif line.strip() and not line[0].isspace() and line[0] not in CLOSING and not begins(line, name):
            name = None
            parts.append((None, []))
        if not parts:
            parts.append((None, []))
        lemma, names = parts[-1]
        if line.startswith("use ") or line.startswith("--"):
            continue
        found = names_in(without_comment(line))
        names += found
        if lemma and line.strip():
            parts[-1] = (lemma._replace(last=number), names)
    return [(lemma, set(names)) for lemma, names in parts]


def dead_lemmas():
    """Returns the lemmas that only dead ones or themselves name."""
    users = collections.defaultdict(set)
    lemmas = []
    alive = object()
    for file in sorted(CRATES.rglob("*.antt")):
        if "out" in file.relative_to(CRATES).parts:
            continue
        is_proof = "proofs" in file.relative_to(CRATES).parts
        for lemma, names in blocks_of(file):
            if lemma and not is_proof:
                lemma = None
            if lemma:
                lemmas.append(lemma)
            for name in names:
                if lemma and name == lemma.name:
                    continue
                users[name].add(lemma or alive)
    for file in list(CRATES.rglob("*.rt")) + list(CRATES.rglob("*.edit")):
        for name in names_in(file.read_text(encoding="utf-8")):
            users[name].add(alive)
    dead = set()
    while True:
        more = {lemma for lemma in lemmas if lemma not in dead and users[lemma.name] <= dead}
        if not more:
            return sorted(dead), len(lemmas)
        dead |= more


def crates_named():
    """Returns the libraries of this repository and the kit that each line of crates.txt names."""
    for line in (TOP / "crates.txt").read_text(encoding="utf-8").splitlines():
        head, sign, rest = line.partition(":")
        if sign and not line.startswith("#"):
            yield head.split()[0], rest.split()


def text_of(name):
    folder = CRATES / name
    files = [f for kind in ("src", "specs", "proofs") for f in (folder / kind).rglob("*") if f.suffix in (".rt", ".antt")]
    return "\n".join(file.read_text(encoding="utf-8") for file in files)


def idle_libraries():
    found, looked = [], 0
    for name, libraries in crates_named():
        text = text_of(name)
        for library in libraries:
            looked += 1
            if not re.search(rf"\b{library}\b", text):
                found.append(f"crates.txt: {name}: no file names {library}")
    return found, looked


def names_used():
    """Returns which crates name an item of another one, by that crate and the item."""
    users = collections.defaultdict(set)
    for file in CRATES.glob("*/src/**/*.rt"):
        for crate, items in USE.findall(file.read_text(encoding="utf-8")):
            for item in re.findall(r"\w+", items):
                users[crate, item].add(file.relative_to(CRATES).parts[0])
    return users


def idle_exports():
    """Returns what crates export and nobody else names, by crate and item, and how many exports there are."""
    users, cited = names_used(), set(CITED.findall((TOP / "docs/TRUST.md").read_text(encoding="utf-8")))
    idle, looked = set(), 0
    for root in CRATES.glob("*/src/lib.rt"):
        crate = root.relative_to(CRATES).parts[0]
        for module, items in EXPORT.findall(root.read_text(encoding="utf-8")):
            for item in re.findall(r"\w+", items):
                looked += 1
                if module != "laws::" and item not in cited and not users[crate, item] - {crate}:
                    idle.add((crate, item))
    return idle, looked


def told(idle, waiting, text):
    """Prints what is idle and waits; returns a line for each that doesn't wait, and for each that waits and isn't idle."""
    for place, name in sorted(idle & waiting):
        print(f"{place}: {name} goes with the next change of its crate")
    return [f"{place}: {text} {name}" for place, name in sorted(idle - waiting)] \
        + [f"{place}: {name} waits to be taken out, and isn't idle" for place, name in sorted(waiting - idle)]


def pairs_of(waiting):
    return {(place, name) for place, names in waiting.items() for name in names}


def main():
    dead, lemmas = dead_lemmas()
    if "--lines" in sys.argv[1:]:
        for lemma in dead:
            print(lemma.file, lemma.first + 1, lemma.last + 1)
        return 0
    libraries, entries = idle_libraries()
    exports, looked = idle_exports()
    found = told({(str(lemma.file.relative_to(TOP)), lemma.name) for lemma in dead}, pairs_of(WAITING), "nothing names")
    found += told(exports, pairs_of(WAITING_EXPORTS), "no other crate names") + libraries
    for line in found:
        print(line)
    print(f"{lemmas + entries + looked - len(found)} passed, {len(found)} failed")
    return 1 if found else 0


if __name__ == "__main__":
    sys.exit(main())
