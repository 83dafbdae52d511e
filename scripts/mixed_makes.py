#!/usr/bin/env python3
"""Runs dmk and GNU make below each other, three levels deep: mixed_makes.py [TIMES] MAKE.. in a checkout whose program is built.

Each MAKE is a GNU make (`make` if none is named), such as version 4.3, which knows slots by descriptors alone, and 4.4.1, which has FIFOs.
For each way of giving the levels to the tools with dmk (--posix) on one of them at least, TIMES times (5 if left out): by
-j4 at the top, and as the client of slots that this script serves: by a FIFO, and by descriptors. Each run has a minute. It has to end with status 0,
run each recipe once and never more than four at once, and leave as many tokens as there were. Where cargo is there, a crate whose build
script calls each tool is built as often by `cargo build -j4`, with the same demands.
The last line is 'N passed, M failed'; the status is 1 where M isn't 0.
"""
import itertools
import json
import os
import shutil
import subprocess
import sys
import tempfile

TOP = os.path.dirname(os.path.dirname(os.path.abspath(__file__)))
SLOTS = 4
RECORD = 'echo "b $1" >>"$LOG"; sleep 0.0$(($$ % 5)); echo "e $1" >>"$LOG"\n'
# A makefile whose recipes are noted, and calls of makes below.
RECIPES = "all: {targets}\n.PHONY: all {targets}\n{one}:\n\t@sh rec $(LEVEL)$@\n"
BELOW = "{below}:\n\t@+LEVEL=$(LEVEL)$@ {tool} -f {file}\n"
CARGO = """fn main() {{
    let status = std::process::Command::new("sh").arg("-c").arg({command}).status().unwrap();
    assert!(status.success());
}}
"""


def write(name, text):
    with open(name, "w", encoding="utf-8") as file:
        file.write(text)


def lay(tools):
    """Writes the makefiles of the three levels and returns how many recipes they come to."""
    one = [f"r{number}" for number in range(5)]
    for level, count in enumerate([3, 2, 0], 1):
        below = [f"s{number}" for number in range(count)]
        text = RECIPES.format(targets=" ".join(one + below), one=" ".join(one))
        if below:
            text += BELOW.format(below=" ".join(below), tool=tools[level], file=f"{level + 1}.mk")
        write(f"{level}.mk", text)
    return 5 + 3 * (5 + 2 * 5)


def most_at_once(lines):
    now = most = 0
    for line in lines:
        now += 1 if line.startswith("b ") else -1
        most = max(most, now)
    return most


def fault_of(ran, wanted, log):
    """Returns what is wrong with a run, by its answer and the log of its recipes, or ''."""
    if ran is None:
        return "it didn't end within a minute"
    with open(log, encoding="utf-8") as file:
        lines = file.read().split("\n")[:-1]
    names = [line[2:] for line in lines if line.startswith("b ")]
    if ran.returncode:
        return f"status {ran.returncode}: {ran.stderr.decode(errors='replace').strip()[-300:]}"
    if len(names) != wanted or len(set(names)) != wanted:
        return f"{len(names)} recipes, {len(set(names))} of them apart, of {wanted}"
    if (most := most_at_once(lines)) > SLOTS:
        return f"{most} recipes at once"
    return ""


def run(words, env, log, fds=()):
    write(log, "")
    try:
        return subprocess.run(words, env=env, stdin=subprocess.DEVNULL, capture_output=True, timeout=60, pass_fds=fds, check=False)
    except subprocess.TimeoutExpired:
        return None


def tokens(end):
    os.set_blocking(end, False)
    try:
        return len(os.read(end, 100))
    except BlockingIOError:
        return 0


def as_client(words, env, log, kind):
    """Runs it as a client of slots of this script's and returns its answer and how many tokens are left too few."""
    if kind == "fifo":
        os.mkfifo("slots")
        reads = writes = os.open("slots", os.O_RDWR)
        auth = f"fifo:{os.getcwd()}/slots"
    else:
        reads, writes = os.pipe()
        auth = f"{reads},{writes}"
    os.write(writes, b"+" * (SLOTS - 1))
    flags = {"MAKEFLAGS": f" -j{SLOTS} --jobserver-auth={auth}"}
    ran = run([word for word in words if word != f"-j{SLOTS}"], env | flags, log, () if kind == "fifo" else (reads, writes))
    missing = SLOTS - 1 - tokens(reads)
    for end in {reads, writes}:
        os.close(end)
    if kind == "fifo":
        os.unlink("slots")
    return ran, missing


def client_kinds(tool, knows_fifos):
    """By what slots the tool may be told of them."""
    return ["fifo", "descriptors"] if knows_fifos[tool] else ["descriptors"]


def trios(tools, dmk, knows):
    """Returns the ways of giving the levels to tools. A GNU make that has FIFOs can't call one that hasn't."""
    for trio in itertools.product(tools, repeat=3):
        if dmk in trio and not any(above != dmk and knows[above] and not knows[below] for above, below in itertools.pairwise(trio)):
            yield trio


def cargo_crate(command):
    os.makedirs("crate/src", exist_ok=True)
    write("crate/Cargo.toml", '[package]\nname = "calls"\nversion = "0.1.0"\nedition = "2021"\n')
    write("crate/src/main.rs", "fn main() {}\n")
    write("crate/build.rs", CARGO.format(command=json.dumps(command)))


def main():
    words = sys.argv[1:]
    times = int(words.pop(0)) if words and words[0].isdigit() else 5
    makes = [os.path.realpath(shutil.which(it)) for it in words or ["make"]]
    dmk = f"{TOP}/crates/dmk/out/dmk --posix"
    knows = {dmk: True} | {it: "auth=fifo" in subprocess.run([it, "-pn", "-j2", "-f", "/dev/null"], capture_output=True, text=True, check=False).stdout for it in makes}
    env = {key: value for key, value in os.environ.items() if key not in ("MAKEFLAGS", "MAKELEVEL", "MFLAGS", "KEEP_STATE")}
    place = tempfile.mkdtemp()
    os.chdir(place)
    env["LOG"] = log = f"{place}/log"
    write("rec", RECORD)
    passed = failed = 0

    def judge(what, fault):
        nonlocal passed, failed
        passed, failed = passed + (not fault), failed + bool(fault)
        if fault:
            print(f"{what}: {fault}", flush=True)

    for tools in trios([dmk, *makes], dmk, knows):
        wanted = lay(tools)
        top = [*tools[0].split(), f"-j{SLOTS}", "-f", "1.mk"]
        for turn in range(times):
            judge(f"{' > '.join(tools)}, turn {turn}", fault_of(run(top, env, log), wanted, log))
            for kind in client_kinds(tools[0], knows):
                ran, missing = as_client(top, env, log, kind)
                judge(f"{kind} > {' > '.join(tools)}, turn {turn}", fault_of(ran, wanted, log) or (missing and f"{missing} tokens too few"))
    if cargo := shutil.which("cargo"):
        for tools in trios([dmk, *makes], dmk, knows):
            wanted = lay(tools)
            cargo_crate(f"cd {place} && {tools[0]} -f 1.mk")
            for turn in range(times):
                shutil.rmtree("crate/target", ignore_errors=True)
                ran = run([cargo, "build", "-q", f"-j{SLOTS}", "--offline", "--manifest-path", "crate/Cargo.toml"], env, log)
                judge(f"cargo > {' > '.join(tools)}, turn {turn}", fault_of(ran, wanted, log))
    else:
        print("no cargo is there")
    os.chdir("/")
    shutil.rmtree(place)
    print(f"{passed} passed, {failed} failed")
    return failed > 0


if __name__ == "__main__":
    sys.exit(main())
