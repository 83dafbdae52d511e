"""The virtual machine: user-mode Linux, a kernel with a page cache, a journal and disks of its own, as a group of processes."""
import contextlib
import itertools
import os
import pathlib
import re
import shutil
import signal
import subprocess
import threading
import time

HERE = pathlib.Path(__file__).resolve().parent
# Seconds that a machine may take to start, and to come to its end by itself.
TO_START, TO_END = 300, 900


def call(*words):
    subprocess.run([str(word) for word in words], check=True, stdout=subprocess.DEVNULL)


def copy_of(image, to):
    call("cp", "--sparse=always", image, to)


def power_off(machine):
    with contextlib.suppress(ProcessLookupError):
        os.killpg(machine.pid, signal.SIGKILL)
    machine.wait()


def wait_for_end(machine, word):
    """Waits for a machine that ends by itself, and returns what it said. It's a fault where it doesn't say the word."""
    timer = threading.Timer(TO_END, power_off, [machine])
    timer.daemon = True
    timer.start()
    try:
        said = machine.stdout.read()
    finally:
        timer.cancel()
        power_off(machine)
    if word not in said or "NOT MOUNTED" in said:
        raise RuntimeError(f"the machine didn't say {word}: {said}")
    return said


class Build:
    """A build by one tool in a machine of its own: when it began, and when and with which status it ended."""

    def __init__(self, machine):
        self.machine, self.said = machine, []
        self.begun = self.ended = self.status = None
        self.has_begun, self.has_ended = threading.Event(), threading.Event()
        self.listener = threading.Thread(target=self.listen, daemon=True)
        self.listener.start()

    def listen(self):
        for line in self.machine.stdout:
            self.said.append(line)
            if line.startswith("READY"):
                self.begun = time.monotonic()
                self.has_begun.set()
            elif end := re.match(r"END (\d+)$", line):
                self.ended, self.status = time.monotonic() - self.begun, int(end[1])
                self.has_ended.set()
        self.has_begun.set()
        self.has_ended.set()

    def cut(self, seconds):
        """Cuts the power so many seconds after the build began, or, where that's None, once it has ended. The seconds that it took,
        or None where it was cut. It's a fault where the machine ended by itself, or the build didn't end well."""
        try:
            self.has_begun.wait(TO_START)
            if self.begun is None or "NOT MOUNTED" in "".join(self.said):
                raise RuntimeError("the machine didn't start: " + "".join(self.said))
            if seconds is None:
                self.has_ended.wait(TO_END)
            else:
                time.sleep(max(0.0, self.begun + seconds - time.monotonic()))
            ended_by_itself = self.machine.poll() is not None
        finally:
            power_off(self.machine)
            # All processes of the machine hold the pipe: at its end none of them writes to a disk any more.
            self.listener.join()
        if ended_by_itself or self.status not in (0, None) or seconds is None and self.ended is None:
            raise RuntimeError("a build or its machine didn't end well: " + "".join(self.said))
        return self.ended


class Machines:
    """Starts machines whose first program is init.sh, in which each tool has a disk of its own."""

    def __init__(self, args, work):
        self.args, self.work = args, work
        self.numbers = itertools.count()
        # A disk with a compiler, which all machines read.
        self.compiler = None

    def make_initramfs(self):
        root = self.work / "root"
        for name in ("bin", "lib"):
            (root / name).mkdir(parents=True)
        shutil.copy(shutil.which("busybox"), root / "bin/busybox")
        shutil.copy(HERE / "init.sh", root / "init")
        os.chmod(root / "init", 0o755)
        call("gcc", "-O2", "-shared", "-fPIC", "-o", root / "lib/unsynced.so", HERE / "unsynced.c")
        for name, program in (("dmk", self.args.dmk), ("make", shutil.which("make")), ("ninja", shutil.which("ninja"))):
            shutil.copy(program, root / "bin" / name)
            listing = subprocess.run(["ldd", program], check=True, capture_output=True, text=True).stdout
            for library in re.findall(r"(/\S+) \(0x", listing):
                (root / library[1:]).parent.mkdir(parents=True, exist_ok=True)
                shutil.copy(library, root / library[1:])
        with open(self.work / "initramfs", "wb") as out:
            subprocess.run("find . | busybox cpio -o -H newc", shell=True, cwd=root, check=True, stdout=out,
                           stderr=subprocess.DEVNULL)

    def start(self, mode, tools, disks, pause="0"):
        """Starts a machine with a disk for each tool, and behind them one for answers where it judges."""
        words = [self.args.linux, f"mem={self.args.memory}M", f"umid=cut{os.getpid()}-{next(self.numbers)}", f"uml_dir={self.work}/uml/",
                 f"initrd={self.work}/initramfs", "quiet", "con=null", "con0=null,fd:1", "ssl=null", f"mode={mode}",
                 f"tools={','.join(tools)}", f"pause={pause}", f"expire={self.args.expire}",
                 f"profile={self.args.profile}"]
        words += [f"ubd{letter}={file}" for letter, file in zip("abcdefg", disks)]
        words += [f"ubdhrc={self.compiler}"] if self.compiler else []
        return subprocess.Popen(words, stdin=subprocess.DEVNULL, stdout=subprocess.PIPE, stderr=subprocess.STDOUT, text=True,
                                errors="replace", start_new_session=True, env=dict(os.environ, TMPDIR=str(self.work)))

    def build(self, tool, disk, seconds):
        """As `Build.cut`, of a build by that tool."""
        return Build(self.start("build", [tool], [disk], self.args.pause)).cut(seconds)
