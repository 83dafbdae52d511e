"""Prints the entries of two databases that only one of them has, and how many both have. Paths count as absolute ones, and a
command by its words but the first, in whatever order: bear names the compiler's path, and puts the output in front of the source."""
import json
import os.path
import shlex
import sys


def entries(name):
    found = set()
    for entry in json.load(open(name)):
        words = entry.get("arguments") or shlex.split(entry["command"])
        folder = entry["directory"]
        found.add((folder, *(os.path.join(folder, entry[key]) for key in ("file", "output")), *sorted(words[1:])))
    return found


one, other = map(entries, sys.argv[1:])
for entry in sorted(one ^ other):
    print(entry)
print(len(one & other))
