"""Prints a line for each batch of side A: the kinds and targets of its records."""
import struct

KINDS = {1: "begun", 2: "done", 3: "failed"}
with open(".make.state", "rb") as file:
    side = file.read()


def number(at):
    return struct.unpack_from("<I", side, at)[0]


def behind_texts(at):
    count, at = number(at), at + 4
    for _ in range(count):
        at += 4 + number(at)
    return at


def record(at):
    kind, size = KINDS[side[at]], number(at + 1)
    target, at = side[at + 5 : at + 5 + size].decode(), at + 5 + size
    if kind == "done":
        for _ in range(3):
            at = behind_texts(at)
    if kind == "failed":
        at += 4
    return f"{kind} {target}", at


at = 19
while at < len(side) and side[at]:
    count, at, records = number(at + 5), at + 9, []
    for _ in range(count):
        told, at = record(at)
        records.append(told)
    print(", ".join(records))
