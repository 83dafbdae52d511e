#!/usr/bin/env python3
"""Runs dmk with --log, and compares each line of its log with what the run did: build_log.py [DMK] (crates/dmk/out/dmk if left out).

Each line has the members of its event, in the types of docs/USING.md; times never go back; a recipe has the lowest worker that is free as
it begins. The last line is 'N passed, M failed'.
"""
import base64
import json
import os
import re
import signal
import subprocess
import sys
import tempfile
import time

TOP = os.path.dirname(os.path.dirname(os.path.abspath(__file__)))
DMK = os.path.abspath(sys.argv[1] if len(sys.argv) > 1 else f"{TOP}/crates/dmk/out/dmk")

# The members of each event with their types; those behind None may be left out.
EVENTS = {
    "run": {"version": int, "words": list, "profile": str, "workers": int, "unix_ns": int, None: {"state": str}},
    "judged": {"target": str, "verdict": str, "prerequisites": list, None: {"reason": str, "file": str}},
    "begun": {"target": str, "worker": int, None: {}},
    "ended": {"target": str, "worker": int, None: {"status": int, "signal": int}},
    "end": {"status": int, "made": int, "failed": int, "not_made": int, None: {}},
}
NAMES = ("target", "file", "reason")


def bytes_of(event, key):
    """Returns the bytes of a name, or a list of those of names."""
    exact = event.get(f"{key}_base64")
    shown = event[key]
    if isinstance(shown, list):
        found = [it.encode() for it in shown] if exact is None else [base64.b64decode(it) for it in exact]
    else:
        found = shown.encode() if exact is None else base64.b64decode(exact)
    if exact is not None:
        parts = list(zip(shown, found)) if isinstance(shown, list) else [(shown, found)]
        assert all(text == name.decode(errors="replace") for text, name in parts), event
        assert any("\ufffd" in text for text, _ in parts), event
    return found


def check_members(event):
    wanted = dict(EVENTS[event["event"]])
    perhaps = wanted.pop(None)
    wanted["ns"] = int
    for key, kind in wanted.items():
        assert type(event[key]) is kind, (key, event)
    for key, value in event.items():
        front = key.removesuffix("_base64")
        if key == "event" or key in wanted:
            continue
        assert type(value) is perhaps.get(key) or front != key and front in event, (key, event)


class Run:
    """One run of a log, with what its lines tell."""

    def __init__(self, events):
        self.events, self.ended, self.judged, self.most = events, {}, {}, 0
        self.head, self.end = events[0], None
        assert self.head["event"] == "run" and self.head["version"] == 1 and self.head["ns"] == 0
        running, before = {}, 0
        for event in events:
            check_members(event)
            assert before <= event["ns"], "a time goes back"
            before = event["ns"]
            self.take(event, running)
        assert self.end is None or self.events[-1] is self.end
        self.running = running

    def take(self, event, running):
        kind = event["event"]
        if kind == "judged":
            assert event["verdict"] == "up to date" or event["reason"], event
            self.judged[bytes_of(event, "target")] = event
        elif kind == "begun":
            worker = min(set(range(len(running) + 1)) - set(running.values()))
            assert event["worker"] == worker, (event, running)
            running[bytes_of(event, "target")] = worker
            self.most = max(self.most, len(running))
        elif kind == "ended":
            target = bytes_of(event, "target")
            assert running.pop(target) == event["worker"], event
            assert ("status" in event) != ("signal" in event), event
            assert event.get("status", 0) in range(256), event
            self.ended[target] = event.get("status", event.get("signal", 0) * -1)
        elif kind == "end":
            self.end = event


def runs_of(data):
    """Returns the runs of a log. Only its last line may be cut off."""
    *lines, rest = data.split(b"\n")
    events = [json.loads(line) for line in lines]
    assert not events or events[0]["event"] == "run"
    starts = [number for number, event in enumerate(events) if event["event"] == "run"] + [len(events)]
    return [Run(events[begin:end]) for begin, end in zip(starts, starts[1:])], rest


def write(name, text):
    with open(name, "wb") as it:
        it.write(text if isinstance(text, bytes) else text.encode())


def run(*words, **more):
    env = {**os.environ, **more}
    for name in ("MAKEFLAGS", "MAKELEVEL", "KEEP_STATE", "CI"):
        if name not in more:
            env.pop(name, None)
    return subprocess.run([DMK, *words], stdin=subprocess.DEVNULL, capture_output=True, env=env, timeout=60)


def logged(*words, **more):
    """Runs it, and returns what came of it and the last run of its log."""
    done = run("--log", "log", *words, **more)
    with open("log", "rb") as it:
        runs, rest = runs_of(it.read())
    assert rest == b"", rest
    last = runs[-1]
    assert last.end and last.end["status"] == done.returncode, (last.events[-1], done)
    assert last.head["words"][1:] == ["--log", "log", *words], last.head
    return done, last


TREE = """.KEEP_STATE:
all: a b
a: a.in c
\tcat a.in c > a
b: c
\tcp c b
c:
\t@echo made c
\techo 1 > c
"""


def one_by_one(profile):
    write("makefile", TREE)
    write("a.in", "x\n")
    done, log = logged(*profile, "-j", "1")
    assert done.returncode == 0 and log.most == 1 and log.head["workers"] == 1, (done, log.head)
    assert log.head["state"] == ".make.state" and log.head["profile"] == ("posix" if profile else "strict"), log.head
    assert log.ended == {b"a": 0, b"b": 0, b"c": 0}, log.ended
    assert (log.end["made"], log.end["failed"], log.end["not_made"]) == (3, 0, 0), log.end
    assert {name: event["prerequisites"] for name, event in log.judged.items()} == {b"a": ["a.in", "c"], b"b": ["c"], b"c": []}
    assert "dmk:" not in done.stdout.decode() + done.stderr.decode(), done
    done, log = logged(*profile)
    assert done.returncode == 0 and len(log.events) == 2 and log.end["made"] == 0, log.events


def as_told(profile):
    """What is judged is what -d tells, and nothing else is printed for it."""
    write("makefile", TREE)
    write("a.in", "x\n")
    run(*profile)
    for changed in ("a.in", "c"):
        time.sleep(0.02)
        write(changed, f"{time.time()}\n")
    os.remove("b")
    for name in ("one", "two", "three"):
        subprocess.run(f"mkdir {name} && cp -p a a.in c makefile .make.state* {name}", shell=True, check=True)
    os.chdir("one")
    told = run(*profile, "-j1", "-d")
    os.chdir("../two")
    plain = run(*profile, "-j1")
    os.chdir("../three")
    done, log = logged(*profile, "-j1")
    lines = re.findall(r"^dmk: (\S+): (.*)$", told.stdout.decode(), re.M)
    found = [(name.decode(), ": ".join(filter(None, (it["reason"], it.get("file"))))) for name, it in log.judged.items()]
    assert lines and found == lines, (found, lines)
    assert (done.stdout, done.stderr) == (plain.stdout, plain.stderr), (done, plain)


def at_once(profile):
    names = [f"t{number}" for number in range(40)]
    write("makefile", f".KEEP_STATE:\nall: {' '.join(names)}\n" + "".join(f"{it}:\n\t@sleep 0.05; : > {it}\n" for it in names))
    done, log = logged(*profile, "-j", "8")
    assert done.returncode == 0 and log.head["workers"] == 8 and 2 <= log.most <= 8, (done, log.most)
    assert len(log.ended) == 40 and log.end["made"] == 40, log.end


def failing(profile):
    write("makefile", ".KEEP_STATE:\nall: a b c\na:\n\t@exit 3\nb: a\n\t@: > b\nc:\n\t@kill -9 $$$$\n")
    done, log = logged(*profile, "-k", "-j1")
    assert done.returncode == 1, done
    assert log.ended == {b"a": 3, b"c": -9}, log.ended
    assert (log.end["made"], log.end["failed"], log.end["not_made"]) == (0, 2, 1), log.end


def without_rule(profile):
    write("makefile", "all: gone\n\t@: > all\n")
    done, log = logged(*profile)
    assert done.returncode == 2 and [it["event"] for it in log.events] == ["run", "end"], log.events


def looks(profile):
    write("makefile", TREE)
    write("a.in", "x\n")
    for option, status in (("-n", 0), ("-q", 1)):
        plain = run(*profile, option)
        done, log = logged(*profile, option)
        assert done.returncode == status and not log.ended, done
        assert (done.stdout, done.stderr) == (plain.stdout, plain.stderr), (done, plain)
        assert "begun" not in {it["event"] for it in log.events}, log.events
    assert not os.path.exists("c")


def killed(profile):
    write("makefile", ".KEEP_STATE:\nall: a b\na:\n\t@: > a\nb: a\n\t@: > begun; sleep 20\n")
    below = subprocess.Popen([DMK, *profile, "--log", "log"], stdin=subprocess.DEVNULL, start_new_session=True)
    for _ in range(2000):
        if os.path.exists("begun"):
            break
        time.sleep(0.01)
    os.killpg(below.pid, signal.SIGKILL)
    below.wait()
    with open("log", "rb") as it:
        [cut_off], _rest = runs_of(it.read())
    assert cut_off.end is None and list(cut_off.running) == [b"b"] and cut_off.ended == {b"a": 0}, cut_off.events
    write("makefile", ".KEEP_STATE:\nall: a b\na:\n\t@: > a\nb: a\n\t@: > b\n")
    with open("log", "rb") as it:
        size = len(it.read())
    logged(*profile)
    with open("log", "rb") as it:
        data = it.read()
    assert len(runs_of(data)[0]) == 2
    # What is cut off within a line stays a line of its own.
    write("log", data[:size - 5])
    run(*profile, "--log", "log")
    with open("log", "rb") as it:
        lines = it.read().split(b"\n")
    assert json.loads(lines[-3])["event"] == "run" and json.loads(lines[-2])["event"] == "end", lines


def below(profile):
    write("makefile", f"all:\n\t@cd sub && {DMK} {' '.join(profile)} && echo $$MAKEFLAGS\n")
    os.mkdir("sub")
    write("sub/makefile", "all:\n\t@: > t\n")
    done, log = logged(*profile)
    assert done.returncode == 0 and log.ended == {b"all": 0} and b"log" not in done.stdout, done
    assert os.listdir("sub") in (["t", "makefile"], ["makefile", "t"]), os.listdir("sub")


def unwritten(profile):
    write("makefile", "all: a b\na:\n\t@: > a\nb:\n\t@: > b\n")
    done = run(*profile, "--log", "/dev/full")
    assert done.returncode == 0 and os.path.exists("a") and os.path.exists("b"), done
    assert done.stderr.decode().count("\n") == 1 and "note: the log /dev/full ends here" in done.stderr.decode(), done.stderr
    os.remove("a")
    done = run(*profile, "--log", "none/log")
    assert done.returncode == 2 and not os.path.exists("a"), done
    assert done.stderr.decode().startswith("dmk: cannot open the log none/log: "), done.stderr


def on_output(profile):
    write("makefile", "all: a b\na:\n\techo said\nb:\n\t@echo dmk: b: newer: a\n")
    done = run(*profile, "--log", "-", "-j1")
    lines = done.stdout.split(b"\n")
    runs, _rest = runs_of(b"".join(line + b"\n" for line in lines if line.startswith(b"{")))
    assert runs[0].ended == {b"a": 0, b"b": 0} and runs[0].end["status"] == 0, done
    others = [line for line in lines if not line.startswith(b"{")]
    assert others == [b"echo said", b"said", b"dmk: b: newer: a", b""], others


def other_names(profile):
    """Names with what JSON escapes. Those of targets are UTF-8: a makefile that isn't is refused."""
    write("makefile", 'all: c\nc: \u00e4"q\\b ; @:\n\u00e4"q\\b: ; @:\n')
    quoted = '\u00e4"q\\b'.encode()
    done, log = logged(*profile)
    assert done.returncode == 0 and set(log.ended) == {quoted, b"c"} == set(log.judged), (done, log.ended, log.judged)
    assert bytes_of(log.judged[b"c"], "prerequisites") == [quoted], log.judged


def like_a_reason(profile):
    """A line of a recipe that reads as a reason is printed, and tells the log nothing."""
    write("dmk:", "#!/bin/sh\n")
    os.chmod("dmk:", 0o755)
    write("makefile", "a:\n\tdmk: a: newer: b\n")
    done, log = logged(*profile, PATH=f"{os.getcwd()}:{os.environ['PATH']}")
    assert done.stdout == b"dmk: a: newer: b\n" and log.judged[b"a"]["reason"] != "newer", (done, log.judged)


def main():
    passed = failed = 0
    scenes = [one_by_one, as_told, at_once, failing, without_rule, looks, killed, below, unwritten, on_output, other_names, like_a_reason]
    for scene in scenes:
        for profile in ([], ["--posix"]):
            with tempfile.TemporaryDirectory() as folder:
                os.chdir(folder)
                try:
                    scene(profile)
                    passed += 1
                except (AssertionError, LookupError, ValueError, OSError, subprocess.SubprocessError) as fault:
                    failed += 1
                    print(f"{scene.__name__} {' '.join(profile)}: {type(fault).__name__}: {fault}")
                os.chdir("/")
    print(f"{passed} passed, {failed} failed")
    return failed > 0


sys.exit(main())
