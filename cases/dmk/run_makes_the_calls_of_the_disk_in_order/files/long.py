"""Writes two sides of version 2. A, of generation 2, ends a byte behind 2^20: a target is begun again and again, another one once, and
the first is done. B, of
generation 1, holds nothing. What of A is kept takes 40 bytes (the first target) and 29."""
import struct


def text(value):
    return struct.pack("<I", len(value)) + value


def header(generation):
    return b"\1DMKSTATE" + struct.pack("<HQ", 2, generation)


done = b"\2" + text(b"out/x") + struct.pack("<I", 1) + text(b": >out/x") + struct.pack("<II", 0, 0)
room = 2**20 + 1 - len(header(2)) - 9 - len(done)
begun = b"\1" + text(b"out/x")
other = b"\1" + text(b"out/x" + b"/" * (room % len(begun)))
count = room // len(begun) - 1
body = begun * count + other + done
with open(".make.state", "wb") as side:
    side.write(header(2) + b"\1" + struct.pack("<II", len(body), count + 2) + body + b"\0")
with open(".make.state.2", "wb") as side:
    side.write(header(1) + b"\0")
