"""Prints the entries of two databases that only one of them has, and how many both have. CMake before 3.29 tells no outputs."""
import json
import sys


def entries(name):
    return {tuple(entry[key] for key in ("directory", "command", "file")) for entry in json.load(open(name))}


one, other = map(entries, sys.argv[1:])
for entry in sorted(one ^ other):
    print(entry)
print(len(one & other))
