"""Stops runs of the wide profile at random moments, by each signal, sent to dmk alone or to its group, over recipes of many styles,
with and without state, with one worker and with eight: python3 scripts/stop_runs.py [RUNS [PROGRAM]]

Two seconds later, or SECONDS_LEFT of the environment, no process of the run may be left; dmk has ended by the signal; and the next
run, which every other time is begun at once behind it, makes each target whole and leaves nothing to do, also once all that could still
be written was written.
The last line is 'N passed, M failed'; the status is 1 where M isn't 0.
"""
import concurrent.futures
import os
import random
import shutil
import signal
import subprocess
import sys
import tempfile
import time

ROOT = os.path.dirname(os.path.dirname(os.path.abspath(__file__)))
DMK = os.path.join(ROOT, "crates", "dmk", "out", "dmk")
AT_ONCE = 6
SECONDS = float(os.environ.get("SECONDS_LEFT", "2"))

# The source is read before the pause, so what is written late has an old text.
MAKE_IT = """#!/bin/sh
text=$(cat s)
printf half >"$1"
sleep "$SLOW"
printf 'whole %s' "$text" >"$1"
"""
STYLES = {
    "plain": "./make_it $@",
    "exec": "exec ./make_it $@",
    "inline": "text=$$(cat s); printf half >$@; sleep $$SLOW; printf 'whole %s' \"$$text\" >$@",
    "ignores INT": "trap '' INT; ./make_it $@",
    "ignores all": "trap '' INT TERM HUP; ./make_it $@",
    "background": "./make_it $@ & wait",
    "brackets": "(./make_it $@) & wait $$!",
    "nohup": "nohup ./make_it $@",
    "session": "setsid -w ./make_it $@",
    "session behind": "setsid ./make_it $@ & wait",
    "pipe": "cat s | ./make_it $@ | cat",
    "no input": "./make_it $@ </dev/null & wait",
    "make below": "$(MAKE) -s -f below.mk $@",
    "other make below": "make -s -f below.mk $@",
    "python": "python3 -c 'import subprocess; subprocess.call([\"./make_it\", \"$@\"])'",
    "timeout": "timeout 60 ./make_it $@",
    "bash": "bash -c './make_it $@; true'",
    "two lines": "./make_it $@.half\n\tcp $@.half $@",
}
KINDS = [(signal.SIGINT, True), (signal.SIGINT, False), (signal.SIGTERM, False), (signal.SIGTERM, True),
         (signal.SIGHUP, True), (signal.SIGHUP, False), (signal.SIGKILL, False), (signal.SIGKILL, True)]
TARGETS = ["t%d" % number for number in range(1, 7)]


def write(folder, name, text, mode=0o644):
    path = os.path.join(folder, name)
    with open(path, "w", encoding="utf-8") as file:
        file.write(text)
    os.chmod(path, mode)


def make_folder(folder, style, keeps_state):
    write(folder, "make_it", MAKE_IT, 0o755)
    write(folder, "s", "old")
    # By times a make below would take for made what was written behind the edit of a source that was read before.
    write(folder, "below.mk", "".join("%s: always ; @./make_it $@\n" % target for target in TARGETS) + "always:\n")
    write(folder, "makefile", (".KEEP_STATE:\n" if keeps_state else "") + "all: %s\n\tcat %s >$@\n" % (" ".join(TARGETS), " ".join(TARGETS))
          + "".join("%s: s\n\t%s\n" % (target, STYLES[style]) for target in TARGETS))


def processes_in(folder):
    """The processes that work in a folder, zombies left out."""
    found = []
    for process in filter(str.isdigit, os.listdir("/proc")):
        try:
            if os.readlink("/proc/%s/cwd" % process).startswith(folder):
                with open("/proc/%s/cmdline" % process, "rb") as words:
                    found.append(words.read().replace(b"\0", b" ").decode(errors="replace")[:60])
        except OSError:
            pass
    return found


def faults_of(folder, program, choice, style, kind, jobs, keeps_state):
    sent, to_group = kind
    variables = {"PATH": os.environ["PATH"], "LC_ALL": "C"}
    words = [program, "--posix", "-j%d" % jobs]
    slow = choice.choice(["0.02", "0.2", "30", "30"])
    first = subprocess.Popen(words, cwd=folder, env=dict(variables, SLOW=slow), stdin=subprocess.DEVNULL,
                             stdout=subprocess.DEVNULL, stderr=subprocess.DEVNULL, start_new_session=True)
    if choice.random() < 0.8:
        wait_for_first(folder, first)
    time.sleep(choice.uniform(0, 0.3))
    try:
        (os.killpg if to_group else os.kill)(first.pid, sent)
    except OSError:
        pass
    faults = []
    status = first.wait(60)
    stopped = time.monotonic()
    if status not in (0, -sent):
        faults.append("ended with %d" % status)
    write(folder, "s", "new")
    if choice.random() < 0.5:
        faults += wait_for_none(folder, stopped)
    again = subprocess.run(words, cwd=folder, env=dict(variables, SLOW="0"), stdin=subprocess.DEVNULL,
                           stdout=subprocess.DEVNULL, stderr=subprocess.PIPE, text=True, timeout=60, check=False)
    if again.returncode != 0:
        faults.append("next run ended with %d: %s" % (again.returncode, again.stderr))
    faults += wait_for_none(folder, stopped)
    for name, times in [(target, 1) for target in TARGETS] + [("all", len(TARGETS))]:
        with open(os.path.join(folder, name), encoding="utf-8") as file:
            text = file.read()
        if text != "whole new" * times:
            faults.append("%s has %s" % (name, text))
    question = subprocess.run(words + ["-q"], cwd=folder, env=variables, stdin=subprocess.DEVNULL,
                              stdout=subprocess.DEVNULL, stderr=subprocess.DEVNULL, timeout=60, check=False)
    if question.returncode != 0:
        faults.append("the run behind it has something to do")
    names = [name for name in os.listdir(folder) if name.endswith(".stopping")]
    return faults + ["left: %s" % name for name in names]


def wait_for_first(folder, run):
    """Waits until the first recipe of a run has begun."""
    while run.poll() is None and not any(name[0] == "t" for name in os.listdir(folder)):
        time.sleep(0.002)


def wait_for_none(folder, stopped):
    """What is wrong where processes are left so long behind the moment when the run was stopped."""
    while True:
        left = processes_in(folder)
        if not left:
            return []
        if time.monotonic() > stopped + SECONDS:
            return ["left: %s" % "; ".join(left)]
        time.sleep(0.05)


def tried(number, program):
    choice = random.Random(number)
    style = list(STYLES)[number % len(STYLES)]
    kind = KINDS[number // len(STYLES) % len(KINDS)]
    jobs = choice.choice([1, 8])
    keeps_state = choice.random() < 0.5
    folder = tempfile.mkdtemp()
    make_folder(folder, style, keeps_state)
    try:
        faults = faults_of(folder, program, choice, style, kind, jobs, keeps_state)
    except (OSError, subprocess.TimeoutExpired) as fault:
        faults = [str(fault)]
    shutil.rmtree(folder, ignore_errors=True)
    name = "run %d (%s, %s to %s, -j%d, %s)" % (number, style, kind[0].name, "the group" if kind[1] else "dmk", jobs,
                                                "state" if keeps_state else "no state")
    return ["FAILED %s: %s" % (name, fault) for fault in faults]


def main():
    # What is ignored here would be ignored by dmk too.
    for number in (signal.SIGTERM, signal.SIGHUP):
        signal.signal(number, signal.SIG_DFL)
    signal.signal(signal.SIGINT, signal.default_int_handler)
    runs = int(sys.argv[1]) if len(sys.argv) > 1 else len(STYLES) * len(KINDS)
    program = os.path.abspath(sys.argv[2]) if len(sys.argv) > 2 else DMK
    failed = 0
    with concurrent.futures.ThreadPoolExecutor(AT_ONCE) as pool:
        for faults in pool.map(lambda number: tried(number, program), range(runs)):
            failed += bool(faults)
            for fault in faults:
                print(fault, flush=True)
    print("%d passed, %d failed" % (runs - failed, failed))
    return 1 if failed else 0


if __name__ == "__main__":
    sys.exit(main())
