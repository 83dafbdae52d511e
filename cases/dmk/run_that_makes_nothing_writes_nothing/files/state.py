"""Writes a side of version 2 of over 2^21 bytes: x is done, and each of many other targets is begun once."""
import struct
import sys


def text(value):
    return struct.pack("<I", len(value)) + value


done = b"\2" + text(b"x") + struct.pack("<I", 1) + text(b": >x") + struct.pack("<II", 0, 0)
names = [b"%050d" % number for number in range(40_000)]
body = done + b"".join(b"\1" + text(name) for name in names)
batch = b"\1" + struct.pack("<II", len(body), 1 + len(names)) + body
sys.stdout.buffer.write(b"\1DMKSTATE" + struct.pack("<HQ", 2, 1) + batch + b"\0")
