#!/usr/bin/env python3
"""Says which functions of a crate are dear to prove, and what each of them has that makes a proof dear.

The crate is checked from nothing, with one job, over the libraries that stand in out/ (`rt lib` and `rt ci` leave them there).
The checker writes a file for each module when it has ended with it; the time since the file before is the module's. A row has
the seconds of all modules of a function, those of its tables of locals (the module Lts), and the size of these in KB. Seconds
are by the clock, brought down to what the processor spent. Behind them stand the function's parameters, bounds of types,
clauses, lines of its body, and its ways out by `?` and `return`. A file of lemmas or a type has a row of its own. The last line
has the whole crate, with the most memory that the checker held.

A table of locals has a row for each point of a function, with all that is owned there, and a struct that is let go on a way out
is let go there field by field. So it grows with the ways out and with what is alive on them: `drop(x)` before a return is one
call, and what may fail first, or in a function of its own, has less to let go.
"""
import argparse
import collections
import os
import re
import resource
import subprocess
import sys
import tempfile

sys.dont_write_bytecode = True

from planted.toolchain import rtlib, source_of

MODULE = re.compile(r"Rattle-\w+-(?:proofs|specs)\.(?:contracts\.|declared\.)?(.+)\.oantt")

Row = collections.namedtuple("Row", "seconds tables kilobytes")


def owner_of(module):
    """Returns the path of the function, type or file that a module belongs to, and the module's own part."""
    path = module.split(".")
    end = len(path)
    while end > 1 and path[end - 1][0].isupper():
        end -= 1
    is_function = path[end - 1][0].islower() or end < len(path)
    return ("::".join(path[:end]), path[-1] if end < len(path) else "") if is_function else ("::".join(path), "")


def modules_of(folder):
    """Yields the modules that a check left, each with the seconds since the one before and its size, in the order of their ends."""
    found = [(it.stat().st_mtime, it.name, it.stat().st_size) for top in os.scandir(folder) if top.is_dir() for it in os.scandir(top)]
    found = sorted(it for it in found if it[1].endswith(".oantt"))
    last = found[0][0] if found else 0.0
    for ended, name, size in found:
        yield name, ended - last, size
        last = ended


def rows_of(folder, share):
    """Returns the rows by owner. share: how much of the time by the clock the processor spent."""
    rows = collections.defaultdict(lambda: Row(0.0, 0.0, 0))
    for name, seconds, size in modules_of(folder):
        owner, part = owner_of(found[1]) if (found := MODULE.fullmatch(name)) else ("(the crate)", "")
        was, is_table = rows[owner], part == "Lts"
        rows[owner] = Row(was.seconds + share * seconds, was.tables + share * seconds * is_table, was.kilobytes + size // 1024 * is_table)
    return rows


def functions_of(crate):
    """Returns the functions of a crate by their last names."""
    source, found = source_of(crate), collections.defaultdict(list)
    for it in source.functions:
        found[it.name].append((it, source.data[it.file]))
    return found


def shape_of(symbol, functions):
    """Returns what a function has that makes its proof dear, or nothing where the name fits none of the crate, or several."""
    *path, name = symbol.split("::")
    fits = [it for it in functions.get(name, []) if list(it[0].module) == path[: len(it[0].module)]]
    fits = [it for it in fits if not it[0].owner or any(it[0].owner in word for word in path)] or fits
    if len(fits) != 1:
        return ""
    function, data = fits[0]
    head = data[function.first : function.opens].decode()
    body = data[function.opens : function.end].decode()
    bounds = len(re.findall(r"(?m)^\s+[\w:]+: [^,]*,$", head.partition("\nwhere")[2]))
    clauses = len(re.findall(r"(?m)^\s*(?:requires|ensures)\b", head))
    ways = len(re.findall(r"\?[;)\s.,]|\breturn\b", body))
    parameters = len(function.params) + bool(function.takes_self)
    return f"{parameters:3}p {bounds:2}b {clauses:2}c {body.count(chr(10)):3}l {ways:2}w  {function.file}:{function.line}"


def check(crate, only, kept):
    """Checks the crate from nothing into this folder. Returns the processor seconds, and the most MB that was held."""
    flags = ["--jobs", "1", *["--test"] * crate.has_tests(), *(it for name in only for it in ("--only", name))]
    words = [*rtlib.guarded(), rtlib.RATTLE, "check", *crate.words(flags, keeps=False), "--incremental", kept]
    before = resource.getrusage(resource.RUSAGE_CHILDREN)
    ran = subprocess.run(words, cwd=crate.folder, stdin=subprocess.DEVNULL, capture_output=True, text=True, errors="replace")
    after = resource.getrusage(resource.RUSAGE_CHILDREN)
    if ran.returncode:
        sys.exit(f"{ran.stdout[-2000:]}{ran.stderr[-2000:]}dear.py: {crate.name} is not proved (status {ran.returncode})")
    return after.ru_utime + after.ru_stime - before.ru_utime - before.ru_stime, after.ru_maxrss // 1024


def report(crate, over, only):
    functions = functions_of(crate)
    with tempfile.TemporaryDirectory(prefix="dear-") as kept:
        spent, megabytes = check(crate, only, kept)
        clock = sum(seconds for _, seconds, _ in modules_of(kept))
        rows = rows_of(kept, min(spent / clock, 1.0) if clock else 1.0)
    for symbol, row in sorted(rows.items(), key=lambda it: -it[1].seconds):
        if row.seconds >= over:
            print(f"{row.seconds:6.1f} s {row.tables:6.1f} s {row.kilobytes:6} KB  {symbol:56} {shape_of(symbol, functions)}")
    tables = sum(row.tables for row in rows.values())
    print(f"{crate.name}: {spent:.0f} s, of which {tables:.0f} for tables of locals; {megabytes} MB", flush=True)


def main(words):
    parser = argparse.ArgumentParser(description=__doc__, formatter_class=argparse.RawDescriptionHelpFormatter)
    parser.add_argument("crates", nargs="+", metavar="CRATE")
    parser.add_argument("--over", type=float, default=3.0, metavar="SECONDS", help="tell of what takes so long (3)")
    parser.add_argument("--only", action="append", default=[], metavar="PATH", help="check this function alone, and what it calls")
    options = parser.parse_args(words)
    os.chdir(os.path.dirname(os.path.dirname(os.path.abspath(__file__))))
    crates = {it.name: it for it in rtlib.crates_below(os.getcwd())}
    for name in options.crates:
        report(crates[name], options.over, options.only)


if __name__ == "__main__":
    main(sys.argv[1:])
