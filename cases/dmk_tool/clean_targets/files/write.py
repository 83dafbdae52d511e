"""Writes a state of version 4 by docs/STATE_FILE.md, and the files that its targets and others have now."""
import os
import struct

THEN = 1700000000123456789


def text(data):
    return struct.pack("<I", len(data)) + data


def texts(*many):
    return struct.pack("<I", len(many)) + b"".join(map(text, many))


def file(size, time=THEN, kind=3):
    return struct.pack("<BqI", kind, time, size)


UNKNOWN, NO_FILE, OTHER = b"\0", b"\1", b"\2"


def marks(*many):
    return text(b"\0" + struct.pack("<I", len(many)) + b"".join(many))


def done(name, of_names, names=(), commands=(b"make it",)):
    """Without hidden prerequisites."""
    return b"\2" + text(name) + texts(*commands) + texts() + b"\2" + texts(*names) + of_names


def kept(name, known):
    return b"\4" + text(name) + b"\2" + bytes(4) + texts() + texts() + known


def write(name, data=b"xyz", time=THEN):
    with open(name, "wb") as it:
        it.write(data)
    os.utime(name, ns=(time, time))


records = [
    done(b"as it was", marks(file(3))),
    done(b"written itself", marks(file(3, kind=4))),
    done(b"later", marks(file(3))),
    done(b"longer", marks(file(3))),
    done(b"gone", marks(file(3))),
    done(b"unknown", marks(UNKNOWN)),
    done(b"never there", marks(NO_FILE)),
    done(b"there now", marks(NO_FILE)),
    done(b"folder", marks(OTHER)),
    done(b"folder once", marks(OTHER)),
    done(b"folder now", marks(file(3))),
    done(b"unreadable", text(b"\7")),
    done(b"of a source", marks(file(3), file(3)), [b"source"]),
    done(b"by a link", marks(file(3))),
    done(b"by nothing", marks(file(3)), (), ()),
    done(b"by no work", marks(file(3)), (), (b":", b"true")),
    done(b"by some work", marks(file(3)), (), (b":", b"true x")),
    done(b"below/it", marks(file(3))),
    done(b"below/..it", marks(file(3))),
    done(b"below/../round", marks(file(3))),
    done(b"../outside/up", marks(file(3))),
    done(b"by a linked folder/in", marks(file(3))),
    done(os.fsencode(os.path.abspath("absolute")), marks(file(3))),
    b"\1" + text(b"begun"),
    b"\3" + text(b"failed") + struct.pack("<I", 256),
    kept(b"without marks", b"\1" + texts(b"s")),
]
body = b"".join(records)
with open(".make.state", "wb") as state:
    state.write(b"\1DMKSTATE" + struct.pack("<HQ", 4, 1) + b"\1" + struct.pack("<II", len(body), len(records)) + body + b"\0")

os.mkdir("below")
os.mkdir("../outside")
os.symlink("../outside", "by a linked folder")
for name in ("as it was", "written itself", "unknown", "there now", "folder once", "unreadable", "of a source", "source", "foreign", "begun",
             "failed", "without marks", "below/it", "below/..it", "round", "../outside/up", "../outside/in", "absolute", "led to", "by nothing", "by no work", "by some work"):
    write(name)
write("later", time=THEN + 1)
write("longer", b"xyz ")
os.mkdir("folder")
os.mkdir("folder now")
os.symlink("led to", "by a link")
