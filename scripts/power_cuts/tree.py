"""The tree that each tool builds: its targets, what each must hold, and the makefile or build.ninja that says how.

The recipes sync nothing. Some write their target at once, some in two parts, some beside it and rename, some in a folder that they
make, some read a file that they report as a hidden prerequisite, and some write much. The second half of the targets is made from
the first half.
"""
import hashlib
import os
import pathlib
import time

COUNT = 50
KINDS = ["whole", "halves", "renamed", "folder", "hidden", "large"]
RECIPE = r"""# recipe.sh KIND NUMBER TARGET LAST SOURCE [TARGET BEFORE]
kind=$1 number=$2 target=$3 last=$4 source=$5 before=$6
front() { for file in $source $before; do read -r line <"$file"; echo "$line"; done; }
body() { front; seq "${number}0001" "$last"; }
case $kind in
whole | large) body >"$target"; sleep "$PAUSE" ;;
halves) front >"$target"; sleep "$PAUSE"; seq "${number}0001" "$last" >>"$target" ;;
renamed) body >"$target.new"; sleep "$PAUSE"; mv "$target.new" "$target" ;;
folder) mkdir -p "${target%/*}"; sleep "$PAUSE"; body >"$target" ;;
hidden)
    { front; read -r line <h/table; echo "$line"; seq "${number}0001" "$last"; } >"$target"
    sleep "$PAUSE"
    if [ -n "$SUNPRO_DEPENDENCIES" ]; then
        echo "$target: h/table" >>"${SUNPRO_DEPENDENCIES%% *}"
    else
        echo "$target: h/table" >"$target.d"
    fi ;;
esac
"""


class Target:
    """A target; its tag stands in its command between two `@`, so a dry run that lists the command names it."""

    def __init__(self, number):
        self.number = number
        self.kind = KINDS[number % len(KINDS)]
        self.tag = f"t_{number:03d}"
        self.name = f"out/{number}/deep/{self.tag}" if self.kind == "folder" else f"out/{self.tag}"
        self.source = f"s/s_{number:03d}"
        self.before = Target(number - COUNT // 2) if number >= COUNT // 2 else None
        self.first = int(f"{number}0001")
        self.last = self.first + (30000 if self.kind == "large" else 700)

    def front(self, version):
        return f"source {self.number} version {version}\n"

    def text(self, version):
        """What the target holds, made from sources of that version."""
        text = self.front(version)
        if self.before:
            text += self.before.front(version)
        if self.kind == "hidden":
            text += "hidden\n"
        return text + "".join(f"{n}\n" for n in range(self.first, self.last + 1))

    def prerequisites(self):
        return self.source + (" " + self.before.name if self.before else "")

    def command(self):
        return f": @{self.tag}@; exec sh ./recipe.sh {self.kind} {self.number} {self.name} {self.last} {self.prerequisites()}"


ALL = [Target(number) for number in range(COUNT)]


def digests(version):
    """The SHA-256 of each target's text, by its name."""
    return {target.name: hashlib.sha256(target.text(version).encode()).hexdigest() for target in ALL}


def build_ninja():
    lines = ["rule one\n  command = $line\n\nrule hidden\n  command = $line\n  depfile = $out.d\n  deps = gcc\n\n"]
    for target in ALL:
        rule = "hidden" if target.kind == "hidden" else "one"
        lines.append(f"build {target.name}: {rule} {target.prerequisites()}\n  line = {target.command()}\n")
    names = " ".join(target.name for target in ALL)
    return "".join([*lines, f"build all: phony {names}\ndefault all\n"])


def makefile(end):
    names = " ".join(target.name for target in ALL)
    rules = [f"{target.name}: {target.prerequisites()}\n\t{target.command()}\n" for target in ALL]
    return "".join([f"all: {names}\n", *rules, end])


def write(place, tool):
    """Writes the tree for a tool, with sources of version 1; those of version 2 lie in `later`. All files are a day old."""
    for name in ("s", "later", "h", "out"):
        (place / name).mkdir(parents=True)
    (place / "recipe.sh").write_text(RECIPE)
    (place / "h/table").write_text("hidden\n")
    (place / "later.sh").write_text("cp later/* s/\n")
    (place / "hidden.sh").write_text("touch h/table\n")
    (place / "targets").write_text("".join(target.name + "\n" for target in ALL))
    for target in ALL:
        (place / target.source).write_text(target.front(1))
        (place / "later" / pathlib.Path(target.source).name).write_text(target.front(2))
    if tool == "ninja":
        (place / "build.ninja").write_text(build_ninja())
    else:
        (place / "makefile").write_text(makefile("-include $(wildcard out/*.d)\n" if tool == "make" else ".KEEP_STATE:\n"))
    old = time.time() - 86400
    for folder, _, files in os.walk(place):
        for name in files:
            os.utime(os.path.join(folder, name), (old, old))
