"""The record of crates whose planted edits were all refused: a line each, 'NAME SUM EDITS'."""
import hashlib
import os

from .statements import named_below
from .toolchain import KIT, rtlib

FILE = "scripts/planted.record"


def read():
    """Returns the sum and the number of edits of each crate that is recorded."""
    rows = [line.split() for line in (rtlib.text_of(FILE) or "").splitlines()]
    return {name: (key, int(count)) for name, key, count in rows}


def write(known):
    with open(FILE, "w", encoding="utf-8") as out:
        out.writelines(f"{name} {key} {count}\n" for name, (key, count) in sorted(known.items()))


def logic():
    """Returns the sum of the logic over which the kit proves. Kits that differ in the rest prove the same goals."""
    with open(f"{KIT}/KIT-ID", encoding="utf-8") as kit:
        words = kit.read().split()
    return words[words.index("logic") + 1]


def key_of(crate, edits):
    """Returns a sum of what the verdicts rest on: the kit's logic, the crate's files and edits, what these name below it."""
    key = hashlib.sha256()

    def add(*what):
        key.update(repr(what).encode())

    add(logic())
    files = [*rtlib.files_of(crate.folder), *edits]
    for file in files:
        add(os.path.relpath(file, crate.folder), rtlib.sum_of(file))
    for statement in named_below(crate, files):
        add(*statement)
    return key.hexdigest()[:32]
