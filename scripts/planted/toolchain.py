"""The code of the installed toolchain that the trials share with it.

`rt` applies edits and checks copies of crates, `rtlib` knows the crates of a repository, and `bodies`, which `rt plant`
uses, reads where the functions of a crate stand.
"""
import importlib.machinery
import os
import shutil
import sys
import types


def load(path, name):
    """Imports a Python file whose name has no ending, or one that no module may have."""
    made = types.ModuleType(name)
    made.__file__ = path
    sys.modules[name] = made
    importlib.machinery.SourceFileLoader(name, path).exec_module(made)
    return made


RT = os.path.realpath(shutil.which("rt") or sys.exit("planted.py: there is no rt in the path"))
KIT = os.path.dirname(os.path.dirname(RT))
rt = load(RT, "rt")
rtlib = rt.rtlib
bodies = load(f"{KIT}/bin/rt-plant-bodies", "rt_plant_bodies")


def source_of(crate):
    """Reads the functions of a crate and the bytes of its files."""
    source = bodies.Source(crate.folder)
    source.read("src/main.rt" if crate.is_program else "src/lib.rt")
    return source
