"""Writes a side of version 2 that ends at 2^20 and so many bytes behind it: x is done, and other targets are begun, again and again."""
import struct
import sys


def text(value):
    return struct.pack("<I", len(value)) + value


done = b"\2" + text(b"x") + struct.pack("<I", 1) + text(b": >x") + struct.pack("<II", 0, 0)
room = 2**20 + int(sys.argv[1]) - 19 - 9 - len(done)
count = room // 55
names = [b"%050d" % (number % 5000) for number in range(count - 1)]
names.append(b"n" * (room - 55 * (count - 1) - 5))
body = done + b"".join(b"\1" + text(name) for name in names)
batch = b"\1" + struct.pack("<II", len(body), 1 + len(names)) + body
sys.stdout.buffer.write(b"\1DMKSTATE" + struct.pack("<HQ", 2, 1) + batch + b"\0")
