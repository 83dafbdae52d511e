"""Copies of a crate in which functions stand beside those that they were made of, each with a copy of the stored proof."""
import os
import re
import shutil

from .edits import home_of
from .toolchain import rtlib


def write_copy(crate, source, room, plants):
    """Writes the crate with these plants into a folder, and returns by file and line which plant stands there."""
    for part in rtlib.PARTS:
        shutil.rmtree(f"{room}/{part}", ignore_errors=True)
        if os.path.isdir(f"{crate.folder}/{part}"):
            shutil.copytree(f"{crate.folder}/{part}", f"{room}/{part}")
    lines = {}
    for file, data in source.data.items():
        of_file = sorted((it for it in plants if it.beside.file == file), key=lambda it: it.beside.end)
        text, spans = text_with(data, of_file)
        lines.update({(file, line): plant for plant, span in spans for line in span})
        with open(f"{room}/{file}", "wb") as out:
            out.write(text)
    for plant in plants:
        copy_proofs(crate, source, room, plant)
    return lines


def text_with(data, plants):
    """Returns a file's text with each plant behind its function, and the lines of each."""
    text, at, spans = b"", 0, []
    for plant in plants:
        text += data[at : plant.beside.end] + b"\n\n"
        first = text.count(b"\n") + 1
        text += renamed(plant)
        spans.append((plant, range(first, text.count(b"\n") + 2)))
        at = plant.beside.end
    return text + data[at:], spans


def renamed(plant):
    start, end = (it - plant.beside.first for it in plant.beside.named)
    assert plant.text[start:end].decode() == plant.beside.name
    return plant.text[:start] + plant.name.encode() + plant.text[end:]


def copy_proofs(crate, source, room, plant):
    """Copies the proof of the function and of its closures; where it names its own function's path, it names the plant."""
    name, (module, owner) = plant.beside.name, home_of(source, plant.beside)
    for place in ([*module, *owner], [*module, "fn", *owner]):
        folder = "/".join([room, "proofs", *place])
        if not os.path.isdir(f"{folder}/{name}"):
            continue
        shutil.copytree(f"{folder}/{name}", f"{folder}/{plant.name}")
        path = "".join(re.escape(it) + r"\." for it in place)
        path = rf"Rattle\.{re.escape(crate.name)}\.(?:proofs|specs\.contracts)\.{path}"
        own = re.compile(rf"(?<![\w.-])({path}){re.escape(name)}(?![\w-])")
        for below, _, files in os.walk(f"{folder}/{plant.name}"):
            for file in files:
                text = own.sub(lambda found: found[1] + plant.name, rtlib.text_of(f"{below}/{file}"))
                with open(f"{below}/{file}", "w", encoding="utf-8") as out:
                    out.write(text)
