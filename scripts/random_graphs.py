#!/usr/bin/env python3
"""Compares what dmk lists of random makefiles with a plan and verdicts that are worked out here from docs/MAKEFILES.md.

usage: random_graphs.py DMK [TREES]

Tree N is drawn from the seed N: up to ten names, with rules, `.WAIT`s, files and their times, and a state with hidden
prerequisites. `dmk -n` must list the wanted lines in the wanted order, and `dmk -q` answer as they do; where there is
no plan, one of the faults that the tree holds must be told. The last lines say how often each kind of tree was met;
the very last is 'N passed, M failed'. A kind that was never met counts as failed.
"""
import collections
import os
import random
import subprocess
import sys
import tempfile

from state_file import batch, begun, done, failed, header

TIME = 1_600_000_000
NOTE = "dmk: note: soft edges make a cycle and are not used for order\n"
CYCLE = "dmk: cycle: "
KINDS = ("order", "order by soft edges", "soft edges dropped", "cycle", "no rule", "nothing to do")


class Tree:
    """A makefile, files and a state. Lines are (target, words, has a recipe); files have times; entries are (phase,
    commands, hidden prerequisites, prerequisites by name), with None and no names where the recipe didn't end well."""

    def __init__(self, seed):
        self.random = random.Random(seed)
        count = self.random.randint(2, 10)
        self.names = [f"n{number}" for number in self.random.sample(range(20), count)]
        self.keeps = self.random.random() < 0.6
        backwards = self.random.choice([0, 0, 0, 0.02, 0.1])
        self.lines = [line for place in range(count) for line in self.drawn_lines(place, backwards)]
        self.random.shuffle(self.lines)
        made = {target for target, _, _ in self.lines}
        self.files = {
            name: TIME + self.random.choice([0, 0, 0, 1, 2])
            for name in self.names
            if self.random.random() < (0.5 if name in made else 0.95)
        }
        self.goals = self.random.sample(self.names, self.random.randint(1, 2))
        self.entries = {name: self.drawn_entry(name) for name in self.names if self.random.random() < 0.9}

    def drawn_lines(self, place, backwards):
        """One or two lines of a target, or none. Most prerequisites stand behind it in the list of names."""
        target = self.names[place]
        lines = []
        has_recipe = self.random.random() < 0.8
        for number in range(self.random.choice([0, 1, 1, 1, 1, 2])):
            words = [name for name in self.names[place + 1 :] if self.random.random() < 0.3]
            words += [name for name in self.names if self.random.random() < backwards]
            self.random.shuffle(words)
            if self.random.random() < 0.3:
                words.insert(self.random.randint(0, len(words)), ".WAIT")
            lines.append((target, words, has_recipe and number == 0))
        return lines

    def drawn_entry(self, name):
        phase = self.random.choice(["done"] * 18 + ["begun", "failed"])
        if phase != "done":
            return phase, None, [], None
        commands = [f"make {name}"] if self.random.random() < 0.95 else []
        behind = self.names[self.names.index(name) + 1 :]
        hidden = [other for other in behind if self.random.random() < 0.2]
        hidden += [other for other in self.names + ["gone"] if self.random.random() < 0.02]
        by_name = self.by_name(name)
        if by_name and self.random.random() < 0.05:
            by_name = by_name[1:]
        return phase, commands, hidden, by_name

    def by_name(self, name):
        words = [word for target, words, _ in self.lines if target == name for word in words]
        return list(dict.fromkeys(word for word in words if word != ".WAIT"))

    def is_made(self, name):
        return any(target == name for target, _, _ in self.lines)

    def has_recipe(self, name):
        return any(target == name and has_recipe for target, _, has_recipe in self.lines)

    def entry(self, name):
        return self.entries.get(name) if self.keeps else None

    def hidden(self, name):
        entry = self.entry(name)
        return entry[2] if entry else []

    def is_gone(self, name):
        return name not in self.files and not self.is_made(name)

    def write(self, folder):
        with open(f"{folder}/makefile", "w") as out:
            out.write(".KEEP_STATE:\n" if self.keeps else "")
            for target, words, has_recipe in self.lines:
                out.write(f"{target}: {' '.join(words)}\n")
                out.write("\tmake $@\n\t?newer $@: $?\n" if has_recipe else "")
        for name, time in self.files.items():
            open(f"{folder}/{name}", "w").close()
            os.utime(f"{folder}/{name}", (time, time))
        with open(f"{folder}/.make.state", "wb") as out:
            out.write(header(1) + batch([begun("unneeded")] + [record(*item) for item in self.entries.items()]) + b"\0")


def record(name, entry):
    phase, commands, hidden, by_name = entry
    if phase == "done":
        return done(name, commands, hidden, by_name)
    return begun(name) if phase == "begun" else failed(name, 1)


class Graph:
    """Nodes in the order of their numbers, and the edges that order them. A row holds what a node waits for."""

    def __init__(self, tree):
        self.names = list(dict.fromkeys(tree.goals))
        for name in self.names:
            hidden = [other for other in tree.hidden(name) if not tree.is_gone(other)]
            self.names += [other for other in dict.fromkeys(tree.by_name(name) + hidden) if other not in self.names]
        self.hard = {name: set(tree.by_name(name)) for name in self.names}
        self.soft = {name: set() for name in self.names}
        for name in self.names:
            self.soft[name].update(other for other in tree.hidden(name) if not tree.is_gone(other))
        for target, words, _ in tree.lines:
            if target in self.names and ".WAIT" in words:
                behind = words.index(".WAIT")
                for name in words[behind + 1 :]:
                    self.soft[name].update(words[:behind])
        both = {name: self.hard[name] | self.soft[name] for name in self.names}
        self.is_cyclic = plan(self.names, self.hard) is None
        self.dropped = not self.is_cyclic and plan(self.names, both) is None
        self.order = plan(self.names, self.hard if self.dropped else both)

    def is_cycle(self, cycle):
        """Whether each is a prerequisite of the one before, each once, from the least number on."""
        if len(cycle) < 2 or cycle[0] != cycle[-1] or len(set(cycle)) != len(cycle) - 1:
            return False
        steps = zip(cycle, cycle[1:])
        return all(b in self.hard.get(a, ()) for a, b in steps) and cycle[0] == min(cycle, key=self.names.index)


def plan(names, rows):
    """Again and again the first name all of whose row was passed; None where some are never passed."""
    order = []
    while len(order) < len(names):
        ready = [name for name in names if name not in order and rows[name] <= set(order)]
        if not ready:
            return None
        order.append(ready[0])
    return order


def is_later(tree, name, target):
    return name in tree.files and target in tree.files and tree.files[name] > tree.files[target]


def is_out_of_date(tree, graph, name, remade):
    entry = tree.entry(name)
    if tree.keeps and entry != ("done", [f"make {name}"], tree.hidden(name), tree.by_name(name)):
        return True
    if name not in tree.files or any(tree.is_gone(other) for other in tree.hidden(name)):
        return True
    if any(is_later(tree, other, name) for other in tree.by_name(name) + tree.hidden(name)):
        return True
    counted = tree.by_name(name) + ([] if graph.dropped else tree.hidden(name))
    return any(other in remade for other in counted)


def listing(tree, graph):
    remade, lines = set(), []
    for name in graph.order:
        if not tree.has_recipe(name):
            if name not in tree.files or graph.hard[name] & remade:
                remade.add(name)
        elif is_out_of_date(tree, graph, name, remade):
            is_new = name not in tree.files
            newer = [other for other in tree.by_name(name) if is_new or is_later(tree, other, name) or other in remade]
            lines += [f"make {name}", f"newer {name}: {' '.join(newer)}"]
            remade.add(name)
    return "".join(line + "\n" for line in lines)


def run(dmk, folder, *words):
    ended = subprocess.run([dmk, *words], cwd=folder, capture_output=True, text=True, timeout=60)
    return ended.returncode, ended.stdout, ended.stderr


def told_fault(tree, graph, answer):
    """Whether one of the faults that the tree holds is told, and nothing else."""
    status, out, err = answer
    if status != 2 or out or not err.endswith("\n"):
        return False
    told = err[:-1]
    if told.startswith(CYCLE):
        return graph.is_cycle(told[len(CYCLE) :].split(" "))
    return told in [f"dmk: no rule for {name}" for name in graph.names if tree.is_gone(name)]


def compare(dmk, tree):
    """What kind of tree it is, and whether dmk's answers are the wanted ones."""
    graph = Graph(tree)
    with tempfile.TemporaryDirectory(prefix="random_graphs-") as folder:
        tree.write(folder)
        listed, asked = run(dmk, folder, "-n", *tree.goals), run(dmk, folder, "-q", *tree.goals)
    if graph.is_cyclic or any(tree.is_gone(name) for name in graph.names):
        kind = "cycle" if graph.is_cyclic else "no rule"
        return kind, told_fault(tree, graph, listed) and told_fault(tree, graph, asked)
    wanted = listing(tree, graph)
    is_right = listed == (0, wanted, NOTE if graph.dropped else "") and asked == (int(wanted != ""), "", "")
    if not wanted:
        return "nothing to do", is_right
    if graph.dropped:
        return "soft edges dropped", is_right
    return ("order" if graph.order == plan(graph.names, graph.hard) else "order by soft edges"), is_right


def main():
    dmk = os.path.abspath(sys.argv[1])
    trees = int(sys.argv[2]) if len(sys.argv) > 2 else 1500
    for name in ("MAKEFLAGS", "KEEP_STATE"):
        os.environ.pop(name, None)
    kinds, passed = collections.Counter(), 0
    for seed in range(trees):
        kind, is_right = compare(dmk, Tree(seed))
        kinds[kind] += 1
        passed += is_right
        if not is_right:
            print(f"FAILED tree {seed} ({kind})")
    missing = [kind for kind in KINDS if not kinds[kind]]
    for kind in KINDS:
        print(f"{kind}: {kinds[kind]} trees" + (" FAILED: none was met" if kind in missing else ""))
    print(f"{passed} passed, {trees - passed + len(missing)} failed")
    sys.exit(passed < trees or bool(missing))


main()
