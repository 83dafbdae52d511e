"""The tree of examples/farm, of $FARM_MODULES modules (48), which gcc compiles inside the machine. As tree.py; of the tools those of
dmk alone build it.

Each recipe names its target between two `@`. In the later version each module's own header has another value, so all of it is out of
date by hidden prerequisites.
"""
import concurrent.futures
import os
import pathlib
import hashlib
import re
import shutil
import subprocess
import sys
import tempfile
import time

os.environ.setdefault("FARM_MODULES", "48")
sys.path.insert(0, str(pathlib.Path(__file__).resolve().parents[2] / "examples/farm"))
import project  # noqa: E402

MODULES = [f"{project.folder_of(n)}/m{n:03d}" for n in range(project.MODULES)]
FLAGS = {"lib": ["-O2", "-DSCALE=1"], "app": ["-O2", "-DSCALE=2"]}
# What gcc wants on a disk of its own: programs that it calls, files of its own folders, headers, and what is linked.
COMPILER = ["/usr/bin/gcc", "/usr/bin/as", "/usr/bin/ld", *(f"/usr/lib/gcc/x86_64-linux-gnu/12/{name}" for name in (
    "cc1", "collect2", "lto-wrapper", "liblto_plugin.so", "crtbegin.o", "crtend.o", "crtbeginS.o", "crtendS.o", "libgcc.a", "libgcc_s.so",
    "include"))]
LIBRARIES = ["Scrt1.o", "crt1.o", "crti.o", "crtn.o", "libc.so", "libc.so.6", "libc_nonshared.a", "libgcc_s.so.1"]


class Target:
    def __init__(self, name, kind):
        self.name = self.tag = name
        self.kind = kind


ALL = [*(Target(f"out/{module}.o", "hidden") for module in MODULES), Target("out/main.o", "main"), Target("include/version.h", "made"),
       Target("out/farm", "linked")]
COUNT = len(ALL)


def later(place):
    """Applies the later version, as later.sh does in the machine."""
    for file in (place / "later").iterdir():
        shutil.copy(file, place / "include" if file.suffix == ".h" else place)


def digests(version):
    """The SHA-256 of what gcc alone makes of the sources of that version, by the targets' names."""
    with tempfile.TemporaryDirectory() as folder:
        place = pathlib.Path(folder) / "tree"
        write(place, "dmk")
        if version == 2:
            later(place)
        number = (place / "version.txt").read_text().strip()
        (place / "include/version.h").write_text(f'#define VERSION "{number}"\n')
        with concurrent.futures.ThreadPoolExecutor(os.cpu_count()) as pool:
            list(pool.map(lambda module: compile_one(place, module), [*MODULES, "main"]))
        objects = ["out/main.o", *(f"out/{module}.o" for module in MODULES)]
        subprocess.run(["gcc", "-o", "out/farm", *objects], cwd=place, check=True)
        return {target.name: hashlib.sha256((place / target.name).read_bytes()).hexdigest() for target in ALL}


def compile_one(place, module):
    flags = FLAGS.get(module.split("/")[0], [])
    subprocess.run(["gcc", "-Iinclude", *flags, "-c", "-o", f"out/{module}.o", f"{module}.c"], cwd=place, check=True)


def write(place, tool):
    """Writes the tree, with headers of version 1; those of version 2 lie in `later`. All files are a day old."""
    if tool not in ("dmk", "dmk-unsynced-targets", "dmk-unsynced"):
        sys.exit(f"power_cuts.py: {tool} doesn't build this tree")
    project.write(place)
    makefile = (place / "makefile").read_text()
    (place / "makefile").write_text(re.sub(r"(?m)^(COMPILE = |\t(?=gcc|sed))", r"\1: @$@@; ", makefile))
    (place / "later").mkdir()
    for header in place.glob("include/m[0-9]*.h"):
        text = re.sub(r"\d+$", lambda number: str(int(number[0]) + 1000), header.read_text(), flags=re.M)
        (place / "later" / header.name).write_text(text)
    (place / "later/version.txt").write_text("2\n")
    (place / "later.sh").write_text("cp later/*.h include/\ncp later/version.txt .\n")
    (place / "hidden.sh").write_text("touch include/f*.h\n")
    (place / "targets").write_text("".join(target.name + "\n" for target in ALL))
    old = time.time() - 86400
    for folder, _, files in os.walk(place):
        for name in files:
            os.utime(os.path.join(folder, name), (old, old))


def write_compiler(place):
    """Copies gcc, and what it needs for this tree, as a machine's /usr."""
    def copy(path):
        to = place / str(path).removeprefix("/usr/")
        if to.exists():
            return
        to.parent.mkdir(parents=True, exist_ok=True)
        (shutil.copytree if os.path.isdir(path) else shutil.copy)(path, to)

    for path in COMPILER:
        copy(path)
        if os.access(path, os.X_OK) and os.path.isfile(path):
            listing = subprocess.run(["ldd", path], capture_output=True, text=True).stdout
            for library in re.findall(r"=> (/\S+) \(0x", listing):
                copy("/usr/lib/x86_64-linux-gnu/" + pathlib.Path(library).name)
    for name in LIBRARIES:
        copy(f"/usr/lib/x86_64-linux-gnu/{name}")
    for folder in ("bits", "sys", "gnu"):
        copy(f"/usr/include/x86_64-linux-gnu/{folder}")
    for header in pathlib.Path("/usr/include").glob("*.h"):
        copy(header)
