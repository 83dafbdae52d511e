#!/usr/bin/env python3
"""Random lists of calls on a board: what `call_rows board` answers is compared with a board over six plain lists.

usage: random_boards.py [LISTS [SEED]]

The plain board is made of the rules of docs/SCHEDULING.md alone, without links and with nothing counted ahead. After
each call where all nodes stand is compared too. The last line is 'N passed, M failed'.
"""

import random
import subprocess
import sys
from pathlib import Path

PROGRAM = Path(__file__).resolve().parent.parent / "crates/call_rows/out/call_rows"
CALLS = 40
LABELS = "abcdef"
TEXTS = ["true", "cc", "false", "gone", "exit 3", "exit 256", "", "-false", "-gone", "?cc", "?false"]
LISTS = ["waiting", "ready", "running", "unflushed", "flushing", "settled"]


class Run:
    """A recipe that was run."""

    def __init__(self, ticket, is_done, commands):
        self.ticket = ticket
        self.is_done = is_done
        self.commands = commands


class Board:
    """Six lists of nodes, and what the rules need beside them."""

    def __init__(self, counted, hard):
        self.counted = counted
        self.hard = hard
        self.lists = {name: [] for name in LISTS}
        self.end = {}
        self.sent = {}
        self.waiting_records = []
        self.tickets = 0
        self.clearances = {}
        self.runs = {}
        for node in range(len(hard)):
            self.lists["waiting" if counted[node] else "ready"].append(node)

    def name(self, node):
        return LABELS[node] if node < len(self.hard) else f"#{node}"

    def list_of(self, node):
        return next((name for name in LISTS if node in self.lists[name]), None)

    def put(self, node, name):
        self.lists[self.list_of(node)].remove(node)
        self.lists[name].append(node)

    def claim(self):
        if not self.lists["ready"]:
            return "none"
        node = self.lists["ready"][0]
        self.put(node, "running")
        return self.name(node)

    def takes(self, node, named, record, run):
        """Whether the table of moves lets a node submit the record with this run."""
        if self.list_of(node) != "running" or named != node:
            return False
        sent = self.sent.get(node)
        kind = record[0]
        if kind == "begun":
            return sent is None and run is None
        if kind == "kept" or run is None or sent != ("begun", run.ticket):
            return False
        return kind == "failed" or (run.is_done and record[1] == run.commands)

    def submit(self, node, named, by, record):
        run = self.runs.pop(by, None)
        text = f"{self.name(named)} {record[0]}" + (f" {record[1]}" if record[0] == "failed" else "")
        if not self.takes(node, named, record, run):
            if run is not None:
                self.runs[by] = run
            return f"refused {text}"
        ticket = self.tickets
        self.tickets += 1
        self.sent[node] = ("begun" if record[0] == "begun" else "end", ticket)
        self.waiting_records.append(f"{ticket} {text}")
        self.put(node, "unflushed")
        return str(ticket) if run is None else f"{ticket}, hands out {run.ticket}"

    def drain(self):
        records, self.waiting_records = self.waiting_records, []
        for node in list(self.lists["unflushed"]):
            self.put(node, "flushing")
        return ", ".join(records) or "nothing"

    def advance(self, node, ticket, record):
        if self.list_of(node) != "flushing" or self.sent[node][1] != ticket or record[0] == "kept":
            return "refused"
        if record[0] == "begun":
            self.put(node, "running")
            self.clearances[node] = ticket
            return "cleared"
        self.settle_with_users(node, f"failed {record[1]}" if record[0] == "failed" else "built")
        return "settled"

    def run(self, node, ignores, texts):
        """A run stops at the first status that isn't 0 and isn't ignored. Blank lines aren't run."""
        lines = [(text, text.lstrip("-?")) for text in texts]
        commands = [line for text, line in lines if line and not text.startswith("?")]
        statuses, outcome = [], "done"
        for text, line in lines:
            if not line:
                continue
            status = int(line[5:]) if line.startswith("exit ") else {"false": 1, "gone": 256}.get(line, 0)
            statuses.append(status)
            if status != 0 and not text.startswith("-") and not ignores:
                outcome = f"failed {status}"
                break
        self.runs[node] = Run(self.clearances.pop(node), outcome == "done", commands)
        return f"{outcome}:" + "".join(f" {status}" for status in statuses) + f", asked {len(statuses)}"

    def settle(self, node, end):
        if self.list_of(node) != "running" or node in self.sent or end not in ("uptodate", "remade"):
            return "refused"
        self.settle_with_users(node, end)
        return "taken"

    def abandon(self, node):
        if self.list_of(node) not in ("waiting", "ready", "running", "flushing"):
            return "refused"
        self.settle_with_users(node, "abandoned")
        return "taken"

    def settle_with_users(self, node, end):
        """Settled nodes are looked at in their order, each once; a look doesn't see what it settles itself."""
        at = len(self.lists["settled"])
        self.end[node] = end
        self.put(node, "settled")
        while at < len(self.lists["settled"]):
            looked = self.lists["settled"][at]
            settled = set(self.lists["settled"])
            going = [user for user in sorted(self.lists["waiting"])
                     if looked in self.counted[user] and self.counted[user] <= settled]
            for user in going:
                ends = [self.end.get(below, "") for below in self.hard[user]]
                if any(text == "abandoned" or text.startswith("failed") for text in ends):
                    self.end[user] = "abandoned"
                    self.put(user, "settled")
                else:
                    self.put(user, "ready")
            at += 1

    def stands(self):
        parts = []
        for node in range(len(self.hard)):
            end = f" {self.end[node]}" if node in self.end else ""
            parts.append(f"{self.name(node)} {self.list_of(node)}{end}")
        parts.append(f"{len(self.lists['unflushed'])} unflushed")
        if self.lists["waiting"] or self.lists["ready"]:
            parts.append("waits")
        return ", ".join(parts)


def has_cycle(edges):
    left = dict(enumerate(edges))
    while left:
        free = [node for node, below in left.items() if not any(other in left for other in below)]
        if not free:
            return True
        for node in free:
            del left[node]
    return False


def counted_edges(hard, soft):
    """Hard and soft edges order nodes, or hard ones alone where only both together make a cycle."""
    both = [one | other for one, other in zip(hard, soft)]
    return hard if has_cycle(both) and not has_cycle(hard) else both


def some_edges(chance, nodes):
    edges = []
    for node in range(nodes):
        is_tangled = chance.randrange(8) == 0
        edges.append({other for other in range(nodes)
                      if chance.randrange(3) == 0 and (other < node or is_tangled)})
    return edges


class Caller:
    """Makes random calls on a plain board, and writes them as a row."""

    def __init__(self, chance, seen):
        self.chance = chance
        self.seen = seen
        nodes = chance.randrange(6) + 1
        hard = some_edges(chance, nodes)
        soft = some_edges(chance, nodes)
        self.board = Board(counted_edges(hard, soft), hard)
        self.lines = []
        for node in range(nodes):
            below = "".join(f" {LABELS[other]}" for other in sorted(hard[node]))
            beside = "".join(f" {LABELS[other]}" for other in sorted(soft[node]))
            self.lines.append(f"node {LABELS[node]}:{below}" + (f" |{beside}" if beside else ""))

    def once_in(self, times):
        return self.chance.randrange(times) == 0

    def some_node(self):
        """A node, or now and then one past the last."""
        nodes = len(self.board.hard)
        return nodes if self.once_in(16) else self.chance.randrange(nodes)

    def one_of(self, name):
        """A node of a list, most of the time."""
        nodes = self.board.lists[name]
        return self.chance.choice(nodes) if nodes and not self.once_in(6) else self.some_node()

    def mostly(self, node):
        return self.some_node() if self.once_in(12) else node

    def some_record(self, run):
        kind = self.chance.randrange(12)
        if kind == 0:
            return ("kept",)
        if kind < 3:
            return ("failed", self.chance.choice([2, 7, 256]))
        if kind > 4 and run is None:
            return ("begun",)
        commands = run.commands if run and not self.once_in(5) else ["another command"]
        return ("done", commands)

    def record_text(self, record):
        if record[0] == "failed":
            return f"failed {record[1]}"
        commands = record[1] if record[0] == "done" else []
        return record[0] + "".join(f" $ {command}" for command in commands)

    def submit(self):
        node = self.one_of("running")
        named, by = self.mostly(node), self.mostly(node)
        record = self.some_record(self.board.runs.get(by))
        words = [f"submit {self.board.name(node)}"]
        if named != node:
            words.append(f"as {self.board.name(named)}")
        if by != node:
            words.append(f"by {self.board.name(by)}")
        return " ".join(words + [self.record_text(record)]), self.board.submit(node, named, by, record)

    def advance(self):
        node = self.one_of("flushing")
        kind, ticket = self.board.sent.get(node, ("begun", 0))
        record = ("begun",) if kind == "begun" else self.chance.choice([("done", []), ("failed", 3)])
        if self.once_in(12):
            record = self.chance.choice([("begun",), ("done", []), ("failed", 4), ("kept",)])
        if self.once_in(12):
            ticket = self.chance.randrange(9)
        named = self.mostly(node)
        words = f"advance {self.board.name(node)} {ticket}"
        words += f" as {self.board.name(named)}" if named != node else ""
        return f"{words} {self.record_text(record)}", self.board.advance(node, ticket, record)

    def run(self):
        if not self.board.clearances:
            return "claim", self.board.claim()
        node = self.chance.choice(sorted(self.board.clearances))
        if self.once_in(8):
            return f"give_up {self.board.name(node)}", str(self.board.clearances.pop(node))
        ignores = self.once_in(6)
        texts = [self.chance.choice(TEXTS) if self.once_in(2) else "true"
                 for _ in range(self.chance.randrange(4))]
        words = f"run {self.board.name(node)}" + (" ignore" if ignores else "")
        return words + "".join(f" $ {text}" for text in texts), self.board.run(node, ignores, texts)

    def settle(self):
        node = self.one_of("running")
        end = self.chance.choice(["uptodate", "remade", "uptodate", "remade", "built", "abandoned", "failed 3"])
        return f"settle {self.board.name(node)} {end}", self.board.settle(node, end)

    def abandon(self):
        node = self.some_node()
        return f"abandon {self.board.name(node)}", self.board.abandon(node)

    def call(self):
        number = self.chance.randrange(24)
        if number < 5:
            return "claim", self.board.claim()
        if number < 11:
            return self.submit()
        if number < 14:
            return "drain", self.board.drain()
        if number < 18:
            return self.advance()
        if number < 21:
            return self.run()
        return self.settle() if number < 23 else self.abandon()

    def write(self):
        self.lines.append(f"stands > {self.board.stands()}")
        for _ in range(CALLS):
            call, answer = self.call()
            self.lines.append(f"{call} > {answer}")
            self.lines.append(f"stands > {self.board.stands()}")
            kind = call.split(" ")[0]
            if kind == "submit":
                kind += " " + next(word for word in call.split(" ") if word in ("begun", "done", "failed", "kept"))
            key = kind, answer.split(" ")[0] in ("refused", "none", "nothing")
            self.seen[key] = self.seen.get(key, 0) + 1
        return self.lines


# What has to have come often, or the comparison shows little: each call taken, and each that can be refused, refused.
WANTED = [("claim", False), ("claim", True), ("drain", False), ("drain", True), ("submit begun", False),
          ("submit begun", True), ("submit done", False), ("submit done", True), ("submit failed", False),
          ("submit failed", True), ("submit kept", True), ("advance", False), ("advance", True), ("run", False),
          ("give_up", False), ("settle", False), ("settle", True), ("abandon", False), ("abandon", True)]


def main(words):
    lists = int(words[0]) if words else 10_000
    seed = int(words[1]) if len(words) > 1 else 1
    seen, lines = {}, []
    for number in range(lists):
        lines.append(f"row list {number} of seed {seed}")
        lines.extend(Caller(random.Random(f"{seed} {number}"), seen).write())
    told = subprocess.run([PROGRAM, "board"], input="\n".join(lines) + "\n", stdout=subprocess.PIPE, text=True, check=False)
    report = told.stdout.splitlines()
    for line in report[:-1][:40]:
        print(line)
    passed, failed = [int(word) for word in report[-1].replace(",", "").split(" ")[::2]] if report else (0, 1)
    if passed + failed != lists or (told.returncode == 0) != (failed == 0):
        print(f"{passed} passed and {failed} failed of {lists}, status {told.returncode}")
        failed += 1
    for kind in WANTED:
        if seen.get(kind, 0) * 20 < lists:
            print(f"too few of {kind}: {seen.get(kind, 0)}")
            failed += 1
    print(f"{passed} passed, {failed} failed")
    return 0 if failed == 0 else 1


if __name__ == "__main__":
    sys.exit(main(sys.argv[1:]))
