"""Writes a tree of files for bench_dmk.sh: dmk_tree.py flat|layers|hidden|chain TARGETS FOLDER

The folder gets a makefile for dmk and for GNU make, a build.ninja, all files, of one time, and the state and ninja's log (of
version 5, as ninja 1.11 writes it) of a build that was whole. What dmk has as hidden prerequisites in its state, make reads
as prerequisites from GNUmakefile, as compilers write them, and ninja from its rules.
  flat    each target is made from a source of its own
  layers  layers of a thousand targets, each made from ten of the layer below, the lowest from sources
  hidden  as flat, and each target has read 20 of a thousand headers
  chain   each target is made from the next one, the last from a source; only the last has a recipe
"""
import os
import struct
import sys

from state_file import batch, done, header

TIME = 1_700_000_000 * 10**9
HEADERS = [f"h{number}.h" for number in range(1000)]


def flat(count):
    return [(f"t{n}", [f"s{n}"], []) for n in range(count)]


def layers(count):
    nodes = []
    for n in range(count):
        row, place = divmod(n, 1000)
        below = [f"t{(row - 1) * 1000 + (place * 7 + k * 13) % 1000}" for k in range(10)] if row else [f"s{n}"]
        nodes.append((f"t{n}", below, []))
    return nodes


def hidden(count):
    return [(f"t{n}", [f"s{n}"], [HEADERS[(n * 31 + k * 47) % 1000] for k in range(20)]) for n in range(count)]


def chain(count):
    return [(f"t{n}", [f"t{n + 1}" if n + 1 < count else "s"], []) for n in range(count)]


def command(kind, target, prerequisites):
    return f"cc -O2 -c -o {target} {prerequisites[0]}"


def has_recipe(kind, number, count):
    return kind != "chain" or number + 1 == count


def write_makefiles(kind, nodes):
    count = len(nodes)
    goals = ["t0"] if kind == "chain" else [target for target, _, _ in nodes]
    # In parts: a text over 1 MiB has no expansion (docs/MAKEFILES.md).
    lines = [".KEEP_STATE:"] + ["all: " + " ".join(goals[at:at + 50000]) for at in range(0, count, 50000) if goals[at:]]
    for number, (target, prerequisites, _) in enumerate(nodes):
        lines.append(f"{target}: " + " ".join(prerequisites))
        if has_recipe(kind, number, count):
            lines.append("\t" + command(kind, target, prerequisites))
    with open("makefile", "w") as out:
        out.write("\n".join(lines) + "\n")
    with open("GNUmakefile", "w") as out:
        out.write("include makefile\n")
        for target, _, names in nodes:
            if names:
                out.write(f"{target}: " + " ".join(names) + "\n")


def write_state(kind, nodes):
    count = len(nodes)
    with open(".make.state", "wb") as out:
        out.write(header(1))
        for number, (target, prerequisites, names) in enumerate(nodes):
            if has_recipe(kind, number, count):
                out.write(batch([done(target, [command(kind, target, prerequisites)], names, prerequisites)]))
        out.write(b"\0")


def ninja_hash(command):
    """How ninja's log names a command: 64 bits of MurmurHash2, as Austin Appleby published it, with ninja's seed."""
    factor, mask, text = 0xC6A4A7935BD1E995, 2**64 - 1, command.encode()
    found = 0xDECAFBADDECAFBAD ^ (len(text) * factor & mask)
    whole = len(text) // 8 * 8
    for (word,) in struct.iter_unpack("<Q", text[:whole]):
        word = word * factor & mask
        word ^= word >> 47
        found = (found ^ (word * factor & mask)) * factor & mask
    if whole < len(text):
        found = (found ^ int.from_bytes(text[whole:], "little")) * factor & mask
    found = (found ^ found >> 47) * factor & mask
    return found ^ found >> 47


def write_ninja_log(kind, nodes):
    count = len(nodes)
    with open(".ninja_log", "w") as out:
        out.write("# ninja log v5\n")
        for number, (target, _, _) in enumerate(nodes):
            if has_recipe(kind, number, count):
                out.write(f"0\t1\t{TIME}\t{target}\t{ninja_hash(f'true {target}'):x}\n")


def write_ninja(kind, nodes):
    count = len(nodes)
    with open("build.ninja", "w") as out:
        out.write("rule cc\n  command = true $out\n")
        for number, (target, prerequisites, names) in enumerate(nodes):
            rule = "cc" if has_recipe(kind, number, count) else "phony"
            more = " | " + " ".join(names) if names else ""
            out.write(f"build {target}: {rule} " + " ".join(prerequisites) + more + "\n")
        goals = ["t0"] if kind == "chain" else [target for target, _, _ in nodes]
        out.write("build all: phony " + " ".join(goals) + "\ndefault all\n")


def write_files(nodes):
    names = set()
    for target, prerequisites, hidden_names in nodes:
        names.add(target)
        names.update(prerequisites)
        names.update(hidden_names)
    for name in sorted(names):
        with open(name, "w"):
            pass
        os.utime(name, ns=(TIME, TIME))


if __name__ == "__main__":
    kind, count, folder = sys.argv[1], int(sys.argv[2]), sys.argv[3]
    os.makedirs(folder, exist_ok=True)
    os.chdir(folder)
    made = {"flat": flat, "layers": layers, "hidden": hidden, "chain": chain}[kind](count)
    write_files(made)
    write_makefiles(kind, made)
    write_state(kind, made)
    write_ninja(kind, made)
    write_ninja_log(kind, made)
