#!/usr/bin/env python3
"""Random histories of a tree: edits of all kinds, and runs of the wide profile that keep state, beside a model of what files hold.

usage: random_histories.py [HISTORIES [SEED [PROGRAM [WORDS]]]]

Behind each run that ends well every target holds what its recipe makes of the files as they are, and `-q` finds nothing to be made.
Each text that is written has a length of its own, so no two files of one time have one size. WORDS are those of the runs, `--posix`
where left out; without them the strict profile is seen to be stale. The last line is 'N passed, M failed'.
"""

import concurrent.futures
import os
import random
import shutil
import signal
import subprocess
import sys
import tempfile
import time
from pathlib import Path

PROGRAM = Path(__file__).resolve().parent.parent / "crates/dmk/out/dmk"
STEPS = 10
# A header that is new in a report, and was changed in the tick of the clock in which its user's recipe begins, has that made once more.
TICK = 0.012
RUN_SECONDS = 60


class Stale(Exception):
    """What a history shows that may not be."""


class Tree:
    """A folder with a makefile: sources, a link, headers that recipes report, and targets made of these and of each other."""

    def __init__(self, chance, folder, program, words):
        self.chance = chance
        self.folder = folder
        self.program = program
        self.words = words
        self.length = 0
        self.plain = ["s0", "s1", "s2", "a0", "a1"]
        self.headers = ["h0", "h1"]
        self.targets = {}
        for name in self.plain + self.headers:
            self.write(name)
        os.symlink("a0", self.path("link"))
        lines = [".KEEP_STATE:", "all: t0 t1 t2 t3"]
        known = ["s0", "s1", "s2", "link"]
        for number in range(4):
            name = f"t{number}"
            named = chance.sample(known, chance.randint(1, min(3, len(known))))
            hidden = chance.sample(self.headers, chance.randint(0, 2))
            self.targets[name] = named + hidden
            known.append(name)
            lines.append(f"{name}: {' '.join(named)}")
            lines.append(f"\t@echo {name} >>log; x=`cat {' '.join(named + hidden)}`; test ! -f {name}.hook || {{ . ./{name}.hook; rm -f {name}.hook; }};"
                         f" echo \"$$x\" >{name}; set -- $$SUNPRO_DEPENDENCIES; echo \"$$2: {' '.join(hidden)}\" >$$1")
        Path(self.path("makefile")).write_text("\n".join(lines) + "\n")

    def path(self, name):
        return os.path.join(self.folder, name)

    def text(self):
        self.length += 1
        return "x" * self.length + "\n"

    def write(self, name):
        Path(self.path(name)).write_text(self.text())

    def put_in_place(self, name):
        """Another file under the name, as `mv` and `cp -p` do it: its time may be any."""
        Path(self.path("new")).write_text(self.text())
        self.set_time("new")
        os.replace(self.path("new"), self.path(name))

    def set_time(self, name):
        now = time.time_ns()
        of_target = self.time_of(self.chance.choice(list(self.targets) or ["s0"]))
        moment = self.chance.choice([now, now - 3_600_000_000_000, now - 1_000_000_000, of_target, 1_000_000_000, now + 3_600_000_000_000])
        os.utime(self.path(name), ns=(moment, moment))

    def time_of(self, name):
        try:
            return os.stat(self.path(name)).st_mtime_ns
        except OSError:
            return time.time_ns()

    def wanted(self, name):
        if name not in self.targets:
            return Path(self.path(name)).read_text()
        return "".join(self.wanted(it) for it in self.targets[name])

    def call(self, *words):
        return subprocess.run([self.program, *self.words, *words], cwd=self.folder, stdin=subprocess.DEVNULL, capture_output=True,
                              text=True, timeout=RUN_SECONDS)

    def run(self, hooks=()):
        """A run to its end; one more for each file that was changed while a recipe read it."""
        time.sleep(TICK)
        for _ in range(1 + len(hooks)):
            ended = self.call("-s", f"-j{self.chance.choice([1, 4])}")
            if ended.returncode != 0:
                raise Stale(f"a run ended with {ended.returncode}: {ended.stdout}{ended.stderr}")
        for name in self.targets:
            found = Path(self.path(name)).read_text()
            if found != self.wanted(name):
                raise Stale(f"{name} holds {len(found)} bytes, wanted {len(self.wanted(name))}")
        asked = self.call("-q", "-d")
        if asked.returncode != 0:
            raise Stale(f"nothing was changed, and there is something to be made: {asked.stdout}{asked.stderr}")

    def edit(self):
        name = self.chance.choice(["s0", "s1", "s2", "a0", "a1", "h0", "h1"])
        self.chance.choice([self.write, self.put_in_place, self.set_time])(name)

    def write_target(self):
        name = self.chance.choice(list(self.targets))
        if self.chance.random() < 0.3 and os.path.exists(self.path(name)):
            os.remove(self.path(name))
        else:
            self.put_in_place(name)

    def lead_elsewhere(self):
        os.remove(self.path("link"))
        os.symlink(self.chance.choice(["a0", "a1"]), self.path("link"))

    def run_while_edited(self):
        """A run one of whose recipes finds a file changed behind its reading."""
        name = self.chance.choice(list(self.targets))
        read = [it for it in self.targets[name] if it in ("s0", "s1", "s2", "h0", "h1")]
        if not read:
            return
        text = self.text().strip()
        Path(self.path(f"{name}.hook")).write_text(f"echo {text} >{self.chance.choice(read)}\n")
        self.run(hooks=[name, name])
        if os.path.exists(self.path(f"{name}.hook")):
            os.remove(self.path(f"{name}.hook"))

    def run_killed(self):
        """A run that is killed in a recipe, alone or with it."""
        name = self.chance.choice(list(self.targets))
        self.edit()
        Path(self.path(f"{name}.hook")).write_text("sleep 0.08\n")
        child = subprocess.Popen([self.program, *self.words, "-s", "-j4"], cwd=self.folder, stdin=subprocess.DEVNULL,
                                 stdout=subprocess.DEVNULL, stderr=subprocess.DEVNULL, start_new_session=True)
        time.sleep(self.chance.random() * 0.1)
        if self.chance.random() < 0.5:
            os.killpg(child.pid, signal.SIGKILL)
        else:
            child.kill()
        child.wait()
        self.run()
        if os.path.exists(self.path(f"{name}.hook")):
            os.remove(self.path(f"{name}.hook"))

    def step(self):
        kinds = [self.edit] * 6 + [self.write_target] * 2 + [self.lead_elsewhere] + [self.run] * 6 + [self.run_while_edited] * 2 + [self.run_killed]
        kind = self.chance.choice(kinds)
        kind()
        return kind.__name__


def history(seed, program, words):
    """What a history shows that may not be, with its steps; None where it is right."""
    chance = random.Random(seed)
    folder = tempfile.mkdtemp()
    steps = []
    try:
        tree = Tree(chance, folder, program, words)
        for _ in range(STEPS):
            steps.append(tree.step())
        tree.run()
    except Stale as why:
        return f"history {seed}: {', '.join(steps)}: {why}"
    except subprocess.TimeoutExpired:
        return f"history {seed}: {', '.join(steps)}: a run didn't end"
    finally:
        shutil.rmtree(folder, ignore_errors=True)
    return None


def main():
    count = int(sys.argv[1]) if len(sys.argv) > 1 else 300
    first = int(sys.argv[2]) if len(sys.argv) > 2 else 1
    program = os.path.abspath(sys.argv[3]) if len(sys.argv) > 3 else str(PROGRAM)
    words = sys.argv[4:] if len(sys.argv) > 4 else ["--posix"]
    words = [word for word in words if word]
    os.environ["LC_ALL"] = "C"
    for name in ("MAKEFLAGS", "MAKELEVEL", "MFLAGS", "KEEP_STATE", "SUNPRO_DEPENDENCIES"):
        os.environ.pop(name, None)
    passed = failed = 0
    with concurrent.futures.ThreadPoolExecutor(os.cpu_count()) as pool:
        for why in pool.map(lambda seed: history(seed, program, words), range(first, first + count)):
            if why is None:
                passed += 1
                continue
            failed += 1
            if failed <= 20:
                print(why)
    print(f"{passed} passed, {failed} failed")
    return 1 if failed or not passed else 0


if __name__ == "__main__":
    sys.exit(main())
