"""Prints random makefiles in random spellings and has dmk read them: python3 scripts/random_makefiles.py [FIRST [LAST]]

A makefile is made of definitions and rules whose meaning is known as they are made, and is printed with other gaps,
lines that go on, comments and empty lines between them in each place. `dmk -n` has to list what they mean; a line that is
refused behind one in ten has to be told with its number. Each makefile has names of its own, so that a hundred are read by
one call.
The last line is 'N passed, M failed'; the status is 1 where M isn't 0.
"""
import functools
import heapq
import multiprocessing
import os
import shutil
import sys
import tempfile

import rows

MAKEFILES = 10000
TO_ONE_CALL = 100

# Macros that all makefiles see, and pieces of names, values and recipe lines: each with what it stands for.
SHARED = b"A = one\nB = x.c\ny = ye\nEMPTY =\n"
REFERENCES = [(b"$(A)", b"one"), (b"${B:.c=.o}", b"x.o"), (b"$y", b"ye"), (b"${EMPTY}", b""), (b"$(B:%.c=%)", b"x")]
LETTERS = [(text, text) for text in (b"a", b"b", b"Cd", b".", b"-", b"/", b"+", b"?", b"~", b"\xc3\xa9")]
SIGNS = [(text, text) for text in (b"=", b":", b"+=", b";", b"%", b":=", b"\\b", b"c\\\\", b"'", b"(")]
SHELL = [(text, text) for text in (b"#", b"# c", b"@", b"=", b"::", b"| d", b"\\n")]
SHELL += [(b"$$y", b"$y"), (b"$$$$", b"$$")]

# In the meaning of a recipe line: its target, and its newer prerequisites.
TARGET, NEWER = b"\0target", b"\0newer"

BLANKS = (b" ", b"\t", b"  ", b" \t ")
COMMENTS = (b"#", b"# = : c", b"# x: y ; z", b"#\xff\0#",
            b"# goes on \\\nto here", b"# goes \\\r\n\ton \\\n", b"# \\\\")
NOTHING = (b"\n", b" \n", b"\t \n", b"\r\n", b"\\\n\n", b"# c\n", b"  # x: y = z\n", b"\t\t\r\n")


class Random:
    """A linear congruential generator: the same numbers in each run."""

    def __init__(self, seed):
        self.state = seed

    def below(self, limit):
        self.state = (self.state * 6364136223846793005 + 1442695040888963407) % 2 ** 64
        return (self.state >> 33) % limit

    def once_in(self, times):
        return self.below(times) == 0

    def choice(self, items):
        return items[self.below(len(items))]


class Makefile:
    """The lines of one makefile as they are printed, and what they mean."""

    SHARED = SHARED
    COMMAND = "dmk -n"
    STATEMENTS = 9  # and fewer
    PREFIXES = (b"", b" ", b"\t", b"@", b"-@ ", b"+", b"? !")
    COMMENTS_IN_RECIPES = True  # a comment may stand behind a recipe that stands behind a `;`

    def __init__(self, seed):
        self.random = Random(seed)
        self.prefix = b"t%d_" % seed
        self.files, self.text = {}, b""
        self.values = {}         # of each name that is defined: what it comes to
        self.with_text = set()   # those of them whose texts aren't empty
        self.targets = []        # in the order in which they are made; each is made from earlier ones alone
        self.spellings = {}      # of each target
        self.prerequisites = {}  # of each target, each once
        self.recipes = {}        # of a target: what its lines come to
        for _ in range(self.random.below(self.STATEMENTS)):
            self.random.choice(self.statements())()
            self.nothing()
            if self.random.once_in(12):
                self.go_on_in_another_file()
        if self.text and self.random.once_in(3) and self.ends_plainly():
            self.text = self.text[:-1]
        self.end_file()

    def statements(self):
        """What may be printed next."""
        return self.definition, self.rule

    def ends_plainly(self):
        """Whether the last newline may be left out: it is one, and no return stands in front of it."""
        return self.text.endswith(b"\n") and self.text[-2:-1] not in (b"\\", b"\r")

    def end_file(self):
        self.files[b"f%s%d" % (self.prefix, len(self.files))] = self.text
        self.text = b""

    def go_on_in_another_file(self):
        """What was printed so far is included by what comes behind it."""
        self.end_file()
        name = list(self.files)[-1]
        self.text = self.random.choice((b"include %s", b" include\t%s ", b"include\\\n%s # c")) % name + b"\n"

    def word(self, pieces, least=1):
        chosen = [self.random.choice(pieces) for _ in range(least + self.random.below(3))]
        return b"".join(piece[0] for piece in chosen), b"".join(piece[1] for piece in chosen)

    def gap(self, blanks=BLANKS):
        """What stands between two words: blanks, or a line that goes on."""
        if self.random.once_in(6):
            newline = self.random.choice((b"\\\n", b"\\\r\n"))
            return newline + self.random.choice((b"",) + BLANKS)
        return self.random.choice(blanks)

    def end_line(self, may_have_comment=True):
        end = self.random.below(6)
        if end == 0 and may_have_comment:
            self.text += self.random.choice((b"", b" ")) + self.random.choice(COMMENTS)
        elif end == 1:
            self.text += self.random.choice(BLANKS)
        self.text += b"\r\n" if self.random.once_in(8) else b"\n"

    def nothing(self):
        """Lines that mean nothing, now and then."""
        while self.random.once_in(3):
            self.text += self.random.choice(NOTHING)

    def definition(self):
        if self.values and self.random.once_in(2):
            name = self.random.choice(list(self.values))
        else:
            name = b"%sM%d" % (self.prefix, len(self.values))
        words = [self.word(LETTERS + SIGNS + REFERENCES) for _ in range(self.random.below(4))]
        appends = self.random.once_in(3)
        self.text += self.random.choice((b"", b" ", b" \t")) + name
        self.text += self.random.choice((b"", b" ", b"\t", self.gap())) + (b"+=" if appends else b"=")
        for place, word in enumerate(words):
            self.text += (self.random.choice((b"", self.gap())) if place == 0 else self.gap((b" ",))) + word[0]
        self.end_line()
        # A text that comes to nothing, as `${EMPTY}`, is no empty one.
        if not appends or name not in self.with_text:
            self.values[name] = b""
            self.with_text.discard(name)
        else:
            self.values[name] += b" "
        self.values[name] += b" ".join(word[1] for word in words)
        if any(word[0] for word in words):
            self.with_text.add(name)

    def target(self):
        """A target that may get a recipe: a new one, or one that has none."""
        word = self.word(LETTERS + REFERENCES, 0)
        number = b"%s%d" % (self.prefix, len(self.targets))
        name = number + word[1]
        self.targets.append(name)
        self.spellings[name] = number + word[0]
        self.prerequisites[name] = []
        return name

    def rule(self):
        """A rule of one or two targets, each new or known, and of prerequisites that were made before all of these."""
        if self.targets and self.random.once_in(4):
            names = [self.random.choice(self.targets)]
        else:
            names = [self.target() for _ in range(1 + self.random.below(2))]
        earlier = self.targets[:min(self.targets.index(name) for name in names)]
        wanted = [self.random.choice(earlier) for _ in range(self.random.below(4))] if earlier else []
        self.wanted = wanted
        self.text += self.random.choice((b"", b" ")) + self.spelled(names[0])
        for name in names[1:]:
            self.text += self.gap() + self.spelled(name)
        self.text += self.random.choice((b"", b" ", self.gap())) + self.colons(names)
        for place, name in enumerate(wanted):
            self.text += (b"" if place == 0 and self.random.once_in(3) else self.gap()) + self.spelled(name)
        for name in names:
            known = self.prerequisites[name]
            known += [wish for wish in dict.fromkeys(wanted) if wish not in known]
        self.recipe(names, self.may_have_recipe(names[0]))

    def colons(self, names):
        """The sign of a rule of these targets."""
        return b":"

    def may_have_recipe(self, name):
        return name not in self.recipes

    def spelled(self, name):
        return name if self.random.once_in(2) else self.spellings[name]

    def recipe(self, targets, may_have_one):
        lines = []
        if may_have_one and self.random.once_in(3):
            spelled, meant = self.word([piece for piece in SHELL + REFERENCES if b"#" not in piece[0]])
            self.text += self.random.choice((b";", b" ; ", b"\t;")) + b"echo" + spelled
            lines.append(b"echo" + meant)
        self.end_line(self.COMMENTS_IN_RECIPES or not lines)
        if may_have_one:
            for _ in range(self.random.below(4)):
                self.nothing()
                lines.append(self.recipe_line())
        if lines:
            for target in targets:
                self.recipes[target] = lines

    def recipe_line(self):
        """A line behind a TAB, perhaps with prefixes and over several lines."""
        pieces = SHELL + SIGNS + LETTERS + REFERENCES + [(b"$@", TARGET), (b"$(?)", NEWER)]
        spelled, meant = self.word(pieces)
        self.text += b"\t" + self.random.choice(self.PREFIXES) + b"echo " + spelled
        meant = b"echo " + meant
        while self.random.once_in(4):
            spelled, more = self.word(pieces)
            self.text += self.random.choice((b" \\\n", b" \\\r\n")) + self.random.choice((b"\t", b""))
            self.text += b"go " + spelled
            meant += b" \\\ngo " + more
        self.text += b"\r\n" if self.random.once_in(8) else b"\n"
        return meant

    def listing_of(self, target):
        """What `-n` lists for it where no file is there: `$?` are then all prerequisites."""
        newer = b" ".join(self.prerequisites[target])
        lines = self.recipes.get(target, [])
        return b"".join(line.replace(TARGET, target).replace(NEWER, newer) + b"\n" for line in lines)

    def entry(self):
        return list(self.files)[-1]

    def probe(self):
        """A rule that shows the values."""
        lines = [b"\techo <$(%s)>\n" % name for name in self.values]
        return self.prefix + b"show:\n" + b"".join(lines)

    def values_shown(self):
        return b"".join(b"echo <%s>\n" % value for value in self.values.values())


def order(goals, prerequisites):
    """The order of the plan: again and again the first of the goals whose prerequisites have been passed."""
    numbers = {goal: number for number, goal in enumerate(goals)}
    wanted = {goal: len(prerequisites.get(goal, ())) for goal in goals}
    users = {}
    for goal in goals:
        for name in prerequisites.get(goal, ()):
            users.setdefault(name, []).append(goal)
    ready = [number for number, goal in enumerate(goals) if not wanted[goal]]
    while ready:
        goal = goals[heapq.heappop(ready)]
        yield goal
        for user in users.get(goal, ()):
            wanted[user] -= 1
            if not wanted[user]:
                heapq.heappush(ready, numbers[user])


def differences(makefiles, folder):
    """What `dmk -n` lists otherwise than these mean, as lines; none where all is as it is to be."""
    files = {name: text for makefile in makefiles for name, text in makefile.files.items()}
    entries = b" ".join(makefile.entry() for makefile in makefiles)
    probes = b"".join(makefile.probe() for makefile in makefiles)
    files[b"makefile"] = makefiles[0].SHARED + b"include " + entries + b"\n" + probes
    for name, text in files.items():
        rows.write_file(folder, os.fsdecode(name), text)
    goals, prerequisites, listings = [], {}, {}
    for makefile in makefiles:
        goals += makefile.targets[::-1] + [makefile.prefix + b"show"]
        prerequisites.update(makefile.prerequisites)
        listings.update((target, makefile.listing_of(target)) for target in makefile.targets)
        listings[makefile.prefix + b"show"] = makefile.values_shown()
    command = makefiles[0].COMMAND + " " + " ".join("'%s'" % goal.decode() for goal in goals)
    wanted = b"".join(listings[goal] for goal in order(goals, prerequisites))
    return rows.compared((wanted, b"", 0), rows.answer_of(command, folder, rows.environment()))


def fault_differences(makefile, folder):
    """What is told otherwise of a line that is refused, behind all others."""
    text = makefile.files[makefile.entry()]
    if not text.endswith(b"\n") or text.endswith(b"\\\n"):
        return []
    name = makefile.entry().decode()
    rows.write_file(folder, name, text + b"bad\n")
    err = b"dmk: %s:%d: missing separator\n" % (makefile.entry(), text.count(b"\n") + 1)
    return rows.compared((b"", err, 2), rows.answer_of(makefile.COMMAND + " -f " + name, folder, rows.environment()))


def check(kind, seeds):
    """(seed, lines) of each makefile of this kind that isn't read as it is meant."""
    folder = tempfile.mkdtemp(prefix="makefiles")
    failures = []
    try:
        makefiles = {seed: kind(seed) for seed in seeds}
        together = differences(list(makefiles.values()), folder)
        if together:
            alone = [(seed, differences([makefile], folder)) for seed, makefile in makefiles.items()]
            failures = [failure for failure in alone if failure[1]] or [(seed, together) for seed in seeds]
        for seed in seeds[::10]:
            lines = fault_differences(makefiles[seed], folder)
            if lines and seed not in dict(failures):
                failures.append((seed, lines))
    finally:
        shutil.rmtree(folder, ignore_errors=True)
    return failures


def main(kind):
    first = int(sys.argv[1]) if len(sys.argv) > 1 else 0
    last = int(sys.argv[2]) if len(sys.argv) > 2 else (first if len(sys.argv) > 1 else MAKEFILES - 1)
    seeds = range(first, last + 1)
    calls = [seeds[place:place + TO_ONE_CALL] for place in range(0, len(seeds), TO_ONE_CALL)]
    failed, folder = 0, rows.place()
    try:
        with multiprocessing.Pool(os.cpu_count(), rows.work_in, (folder,)) as pool:
            for failures in pool.imap(functools.partial(check, kind), calls):
                failed += len(failures)
                for seed, lines in failures[:3]:
                    print("FAILED makefile %d\n" % seed + "\n".join(lines))
    finally:
        shutil.rmtree(folder, ignore_errors=True)
    print("%d passed, %d failed" % (len(seeds) - failed, failed))
    return 1 if failed or not seeds else 0


if __name__ == "__main__":
    sys.exit(main(Makefile))
