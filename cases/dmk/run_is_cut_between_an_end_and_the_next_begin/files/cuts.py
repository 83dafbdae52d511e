"""Writes what a power cut may have left of side A while its last batch was written: the gate is closed, and of the body there are
so many bytes, of which as many again were never written."""
import struct

with open(".make.state", "rb") as file:
    side = file.read()
gate = 19
while True:
    (size,) = struct.unpack_from("<I", side, gate + 1)
    behind = gate + 9 + size
    if behind >= len(side) or not side[behind]:
        break
    gate = behind
for length in range(gate + 1, len(side) + 1):
    for written in {length, gate + 1}:
        left = side[:gate] + b"\0" + side[gate + 1 : written]
        with open(f"cut.{length}.{written}", "wb") as file:
            file.write(left.ljust(length, b"\0"))
