"""Applies an edit to a copy of a crate: apply_edit.py EDIT CRATE_FOLDER.

An edit is a line 'file: PATH', then pairs of lines 'old: TEXT' and 'new: TEXT'. Each old text must stand in the file
exactly once; a further 'file:' line changes the file. Lines 'error: NAME' and lines that begin with '#' are passed over.
"""
import sys


def main(edit, crate):
    path = old = None
    with open(edit, encoding="utf-8") as lines:
        for line in lines:
            word, _, text = line.rstrip("\n").partition(": ")
            if word == "file":
                path = f"{crate}/{text}"
            elif word == "old":
                old = text
            elif word == "new":
                with open(path, encoding="utf-8") as source:
                    whole = source.read()
                if whole.count(old) != 1:
                    sys.exit(f"{path}: {whole.count(old)} places hold: {old}")
                with open(path, "w", encoding="utf-8") as source:
                    source.write(whole.replace(old, text))


main(*sys.argv[1:])
