"""Writes a side of version 4 of more than 2^20 bytes: x is done, and of other targets, each of 20 files, all marks are kept."""
import struct
import sys


def texts(values):
    return struct.pack("<I", len(values)) + b"".join(struct.pack("<I", len(value)) + value for value in values)


def kept(target, commands, hidden, explicit):
    return b"\4" + texts([target])[4:] + struct.pack("<BI", 2, 0) + texts(commands) + texts(hidden) + explicit


hidden = [b"%c" % letter for letter in range(97, 117)]
marks = b"\0" + struct.pack("<I", 21) + 21 * struct.pack("<BqI", 3, 1764290000123456789, 7)
records = [kept(b"x", [b": >x"], [], b"\1" + texts([]))]
records += [kept(b"%d" % number, [], hidden, b"\2" + texts([]) + texts([marks])[4:]) for number in range(4000)]
body = b"".join(records)
batch = b"\1" + struct.pack("<II", len(body), len(records)) + body
sys.stdout.buffer.write(b"\1DMKSTATE" + struct.pack("<HQ", 4, 1) + batch + b"\0")
