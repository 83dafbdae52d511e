#!/usr/bin/env python3
"""Gives a checkout the libraries that `rt ci` proved in another: share_libraries.py FROM, in the checkout that is to have them.

`rt ci` leaves the libraries of the crates that it proves in crates/NAME/out, where `rt check` of another checkout doesn't look
for them. Those of crates whose text, and that of all below them, is the same in both are linked here, with the mark by which
`rt check` knows them. Call it while no check runs here; FROM may be a place in which `rt ci` still is at work.
"""
import os
import shutil
import sys

sys.dont_write_bytecode = True

from planted.toolchain import rtlib


def libraries_of(top):
    """Returns the crates of a checkout, lowest first, each by its name."""
    return {crate.name: crate for crate in rtlib.crates_below(top)}


def library(crate):
    return f"{crate.folder}/out/rlib/{crate.name}.rlib"


def main():
    if len(sys.argv) != 2:
        sys.exit("usage: share_libraries.py FROM")
    there = libraries_of(os.path.abspath(sys.argv[1]))
    os.chdir(os.path.dirname(os.path.dirname(os.path.abspath(__file__))))
    shared = linked = 0
    have = set()
    for name, crate in libraries_of(os.getcwd()).items():
        stamp, other = crate.stamp(), there.get(name)
        fits = other and other.stamp() == stamp and all(it.name in have for it in crate.below())
        if not fits or not os.path.isfile(f"{library(other)}/format"):
            continue
        have.add(name)
        shared += 1
        mark = f"{os.path.dirname(library(crate))}/shared"
        if crate.is_built() and os.path.isfile(mark):
            continue
        shutil.rmtree(os.path.dirname(library(crate)), ignore_errors=True)
        shutil.copytree(library(other), library(crate), copy_function=os.link)
        for file in ("stamp", "shared"):
            with open(f"{os.path.dirname(library(crate))}/{file}", "w", encoding="utf-8") as it:
                it.write(stamp)
        linked += 1
    print(f"{shared} libraries are the same, {linked} of them linked now")


main()
