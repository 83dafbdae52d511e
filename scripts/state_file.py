"""Writes state files of versions 2 and 4, from the layout in docs/STATE_FILE.md and from nothing else of this repository.

As a program: state_file.py example FILE | marked FILE | pairs FILE | names FILE | begun FILE COUNT | done FILE COUNT
  example  the small state that examples/hello holds
  marked   a small state of version 4, with each kind of mark
  pairs    100 MB as builds leave it: 125,000 begun and done pairs over 50,000 targets, each with 20 hidden and 3
           explicit names
  names    4,000,000 targets, each begun once
  begun    so many targets, each begun once
  done     so many targets, each done once, with one command, 20 hidden and 3 explicit names
"""
import struct
import sys


def text(value):
    value = value.encode() if isinstance(value, str) else value
    return struct.pack("<I", len(value)) + value


def texts(values):
    return struct.pack("<I", len(values)) + b"".join(map(text, values))


def begun(target):
    return b"\x01" + text(target)


def done(target, commands, hidden, explicit):
    return b"\x02" + text(target) + texts(commands) + texts(hidden) + texts(explicit)


UNKNOWN, NO_FILE, OTHER = b"\0", b"\1", b"\2"


def file(time, size, kind=3):
    """The mark of a file of this time, in nanoseconds since 1970, and so many bytes."""
    return struct.pack("<BqI", kind, time, size % 2**32)


def own(time, size):
    return file(time, size, 4)


def marks(source, of):
    """The text of marks: of the target's files, the source, and explicit and hidden prerequisites."""
    return (b"\0" if source is None else b"\1" + text(source)) + struct.pack("<I", len(of)) + b"".join(of)


def done_marked(target, commands, hidden, explicit, of):
    """A done record of version 4, with a text of marks."""
    return b"\x02" + text(target) + texts(commands) + texts(hidden) + b"\2" + texts(explicit) + text(of)


def kept_marked(target, commands, hidden, explicit=None, of=None):
    """A kept record of version 4, of what is done: its explicit prerequisites and the text of their marks may be unknown."""
    known = b"\0" if explicit is None else b"\1" + texts(explicit) if of is None else b"\2" + texts(explicit) + text(of)
    return b"\x04" + text(target) + struct.pack("<BI", 2, 0) + texts(commands) + texts(hidden) + known


def failed(target, status):
    return b"\x03" + text(target) + struct.pack("<I", status)


def header(generation, version=2):
    return b"\x01DMKSTATE" + struct.pack("<HQ", version, generation)


def batch(records):
    body = b"".join(records)
    return b"\x01" + struct.pack("<II", len(body), len(records)) + body


def example():
    yield header(1)
    yield batch([begun("main.o"), begun("parse.o")])
    yield batch([done("main.o", ["cc -O2 -c main.c"], ["parse.h"], ["main.c"])])
    yield batch([done("parse.o", ["cc -O2 -c parse.c"], ["parse.h"], ["parse.c"]), begun("test")])
    yield batch([begun("hello")])
    yield batch([failed("test", 2)])
    yield b"\x00"


def marked():
    yield header(1, 4)
    text_of_c = marks(None, [file(1764290001500000000, 120), file(-1500000000, 7)])
    yield batch([kept_marked("c", [], [], ["s"], text_of_c), kept_marked("d", [], ["h"], ["s"]), kept_marked("e", [], ["h"])])
    of = [file(1764290000123456789, 2**32 - 1), NO_FILE, file(-1, 3), UNKNOWN, OTHER, own(-(2**63), 8), own(0, 0)]
    commands = ["yacc p.y", "mv y.tab.c $@\ntest -s $@"]
    yield batch([begun("p.c"), done_marked("p.c", commands, ["y.tab.h", "new.h"], ["flags", "lib"], marks("p.y", of))])
    yield b"\x00"


def pairs():
    yield header(1)
    hidden = [f"include/projects/part{k:03d}.hpp" for k in range(19)]
    for i in range(125_000):
        target = f"obj/module{i % 50_000:05d}/unit.o"
        own = f"src/m{i % 50_000:05d}.h"
        explicit = [f"src/module{i % 50_000:05d}.c", "include/config.h", "obj/flags"]
        yield batch([begun(target)])
        yield batch([done(target, [f"cc -O2 -c -o {target}"], hidden + [own], explicit)])
    yield b"\x00"


def names():
    yield header(1)
    for first in range(0, 4_000_000, 1000):
        # a fixed scramble of the order, so that the names don't come sorted
        numbers = ((first + k) * 2_654_435_761 % 4_000_037 for k in range(1000))
        yield batch([begun(f"out/obj/{number:09d}.o") for number in numbers])
    yield b"\x00"


def begun_targets(count):
    yield header(1)
    for first in range(0, int(count), 1000):
        yield batch([begun(f"obj/unit{number}.o") for number in range(first, min(first + 1000, int(count)))])
    yield b"\x00"


def done_targets(count):
    yield header(1)
    hidden = [f"include/projects/part{k:03d}.hpp" for k in range(19)]
    for i in range(int(count)):
        target, own = f"obj/module{i:06d}/unit.o", f"src/m{i:06d}.h"
        explicit = [f"src/module{i:06d}.c", "include/config.h", "obj/flags"]
        yield batch([done(target, [f"cc -O2 -c -o {target}"], hidden + [own], explicit)])
    yield b"\x00"


if __name__ == "__main__":
    kind, path, *counts = sys.argv[1:]
    kinds = {"example": example, "marked": marked, "pairs": pairs, "names": names, "begun": begun_targets, "done": done_targets}
    with open(path, "wb") as out:
        for part in kinds[kind](*counts):
            out.write(part)
