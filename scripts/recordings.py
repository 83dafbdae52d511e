"""Runs dmk on a terminal of a fixed size, and compares what stands on its screen with examples/terminal/README.md:
python3 scripts/recordings.py [PROGRAM]

Each part of that file below a heading '## ' has a folder and a terminal (tmux, 64 columns) of its own. Of its blocks, in their order,

    .. file=NAME    is written into the file NAME
    screen [DO]     is what the screen comes to show; DO is done before: touch=FILE makes a file, press=KEY presses a key, type=WORD
                    types a word and Enter. Each line '$ COMMAND' of it that wasn't on the screen before is typed. For how many
                    seconds a recipe is quiet isn't compared.

A screen is waited for, for a minute. The prompt comes once no process of a command is left that works in the folder, so that nothing
writes beside it.
The last line is 'N passed, M failed'; the status is 1 where M isn't 0. Where there is no tmux nothing is run, which is said.
"""
import os
import re
import shutil
import signal
import subprocess
import sys
import tempfile
import time

ROOT = os.path.dirname(os.path.dirname(os.path.abspath(__file__)))
TEXT = os.path.join(ROOT, "examples", "terminal", "README.md")
COLUMNS, ROWS = 64, 20
SECONDS = 60


# What runs on the terminal: commands one behind the other, each prompt behind all that works in the folder.
SHELL = """
import os, signal, subprocess, sys, time
folder, status = os.getcwd(), 0
def is_there(process):
    try:
        return process != str(os.getpid()) and os.readlink("/proc/%s/cwd" % process) == folder
    except OSError:
        return False
signal.signal(signal.SIGINT, signal.SIG_IGN)
while True:
    while any(is_there(process) for process in filter(str.isdigit, os.listdir("/proc"))):
        time.sleep(0.02)
    print("$ ", end="", flush=True)
    words = ["sh", "-c", sys.stdin.readline().replace("$?", str(status))]
    status = subprocess.call(words, preexec_fn=lambda: signal.signal(signal.SIGINT, signal.SIG_DFL) and None)
    status = 128 - status if status < 0 else status
"""


def parts_of(text):
    """Of each part its heading and its blocks: the words of the fence, and the lines."""
    parts = []
    for part in re.split(r"^## ", text, flags=re.M)[1:]:
        blocks = re.findall(r"^```(\S+)(?: ([^\n]*))?\n(.*?)^```$", part, re.M | re.S)
        parts.append((part.split("\n")[0], [(kind, words, body.rstrip("\n")) for kind, words, body in blocks]))
    return parts


def waited_for(holds):
    """Whether it holds within a minute."""
    until = time.monotonic() + SECONDS
    while not holds():
        if time.monotonic() > until:
            return False
        time.sleep(0.02)
    return True


def end_all_in(folder):
    """Ends what works in the folder, as where a part failed, and removes it."""
    for process in filter(str.isdigit, os.listdir("/proc")):
        try:
            if os.readlink("/proc/%s/cwd" % process) == folder:
                os.kill(int(process), signal.SIGKILL)
        except OSError:
            pass
    shutil.rmtree(folder, ignore_errors=True)
    if os.path.exists(folder + ".tmux"):
        os.remove(folder + ".tmux")


class Terminal:
    """A shell on a terminal of tmux, by a server of its own."""

    def __init__(self, folder, program):
        self.server = ["tmux", "-S", folder + ".tmux", "-f", "/dev/null"]
        keep = {name: os.environ[name] for name in ("TMPDIR", "ASAN_OPTIONS") if name in os.environ}
        self.environment = {**keep, "PATH": os.path.dirname(program) + ":" + os.environ["PATH"], "HOME": folder, "LC_ALL": "C.UTF-8",
                            "SHELL": "/bin/sh"}
        self.call("new-session", "-d", "-x", str(COLUMNS), "-y", str(ROWS), "-c", folder, sys.executable, "-c", SHELL)

    def call(self, *words):
        return subprocess.run([*self.server, *words], env=self.environment, stdout=subprocess.PIPE, check=True).stdout.decode()

    def screen(self):
        shown = "\n".join(line.rstrip() for line in self.call("capture-pane", "-p").split("\n")).rstrip("\n")
        return re.sub(r", \d+ s\)$", ")", re.sub(r" \(\d+ s\)$", "", shown, flags=re.M), flags=re.M)

    def type(self, text):
        self.call("send-keys", "-l", text)
        self.call("send-keys", "Enter")

    def close(self):
        self.call("kill-server")


def run_part(heading, blocks, program):
    """What passed of a part, and what is wrong."""
    passed, typed = 0, 0
    folder = os.path.realpath(tempfile.mkdtemp())
    for kind, words, body in blocks:
        if words.startswith("file="):
            with open(os.path.join(folder, words[5:]), "w", encoding="utf-8") as file:
                file.write(body + "\n")
    terminal = Terminal(folder, program)
    try:
        for _, words, body in (block for block in blocks if block[0] == "screen"):
            do, _, what = words.partition("=")
            if do == "touch":
                open(os.path.join(folder, what), "w", encoding="utf-8").close()
            elif do == "press":
                terminal.call("send-keys", what)
            elif do == "type":
                terminal.type(what)
            commands = re.findall(r"^\$ (.+)$", body, re.M)
            for command in commands[typed:]:
                waited_for(lambda: terminal.screen().endswith("$"))
                terminal.type(command)
            typed = len(commands)
            if not waited_for(lambda: terminal.screen() == body):
                return passed, ["%s: wanted:\n%s\nshown:\n%s" % (heading, body, terminal.screen())]
            passed += 1
        return passed, []
    finally:
        terminal.close()
        end_all_in(folder)


def main():
    program = os.path.abspath(sys.argv[1] if len(sys.argv) > 1 else os.path.join(ROOT, "crates", "dmk", "out", "dmk"))
    if not shutil.which("tmux"):
        print("note: there is no tmux here: nothing was run")
        print("0 passed, 0 failed")
        return 0
    passed, wrong = 0, []
    with open(TEXT, encoding="utf-8") as file:
        parts = parts_of(file.read())
    for heading, blocks in parts:
        more, faults = run_part(heading, blocks, program)
        passed, wrong = passed + more, wrong + faults
    for text in wrong:
        print(text)
    print("%d passed, %d failed" % (passed, len(wrong)))
    return 1 if wrong else 0


sys.exit(main())
