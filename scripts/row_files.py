r"""The line language of cases/rows/*.rows: a file of rows becomes the steps that each row takes.

A line is a comment (`#` in front), empty, a directive, or a part of the text that the directive above it wants.
Directives are taken in their order:

    row NAME             begins a row; its name says the behaviour, and is the file's only one
    file NAME            a file, of the text below; folders in its name are made
    hex NAME 00 FF       a file of these bytes
    state NAME           a state file of version 2, one batch of kept records, of the listing below (dmk_state's
                         form). A done target's explicit prerequisites are known, those that are listed, but where
                         a line of four blanks and `?` stands
    time NAME NUMBER     a file's time in nanoseconds since 1970; a file that isn't there is made
    env NAME=VALUE       for the runs below
    fifo NAME TEXT       a FIFO that holds these bytes (none without a text) and is kept open to the row's end
    left NAME TEXT       what is to lie in that FIFO now, in whatever order; it is taken out
    run COMMAND          by sh, without input; then what it has to answer:
    out, err             the text below; left out: nothing. Where the row's folder is printed, HERE is wanted
    status NUMBER        left out: 0

A text has these parts; blanks at a line's end count:

    | TEXT      a line with its newline (`|` alone: an empty line; behind `|` a TAB may stand for the blank)
    \ TEXT      the same without a newline
    x 00 FF     bytes in hex
    100* TEXT   `| TEXT` a hundred times; 100\ TEXT and 100x 00 FF so too. {} is the number of the time, from 1 on,
                {+2} and {-1} are more and less; `0..99*` counts from 0 to 99
"""
import re
import struct

PART = re.compile(rb"(?:(\d+)(?:\.\.(\d+))?([*\\x])|([|\\x]))(?: (.*)|(\t.*)|)", re.DOTALL)
COUNTER = re.compile(rb"\{([+-]\d+)?\}")


class Fault(Exception):
    """What a file of rows may not hold."""


class Text:
    """The parts of a text, which are spelled out only where the row is run."""

    def __init__(self):
        self.parts = []

    def add(self, line):
        """Adds a line of a file of rows; answers whether it is a part of a text at all."""
        found = PART.fullmatch(line)
        if not found:
            return False
        first, last = (int(found[1]), int(found[2])) if found[2] else (1, int(found[1] or 1))
        if last < first:
            raise Fault("a text is repeated no time")
        kind, text = found[3] or found[4], found[5] or found[6] or b""
        if kind == b"x":
            text = hex_bytes(text)
        elif kind != b"\\":
            text += b"\n"
        self.parts.append((first, last, text, bool(found[1]) and kind != b"x"))
        return True

    def bytes(self):
        return b"".join(repeated(*part) for part in self.parts)


def repeated(first, last, text, counts):
    """The text once for each number, which stands in place of its braces."""
    if not counts or not COUNTER.search(text):
        return text * (last - first + 1)
    pieces = COUNTER.split(text)
    shifts = [int(shift or 0) for shift in pieces[1::2]]
    form = b"%d".join(piece.replace(b"%", b"%%") for piece in pieces[::2])
    return b"".join(form % tuple(number + shift for shift in shifts) for number in range(first, last + 1))


def hex_bytes(text):
    try:
        return bytes.fromhex(text.decode("ascii"))
    except ValueError:
        raise Fault("bad hex text")


class Run:
    """A command with what it is to answer."""

    def __init__(self, line, command):
        self.line, self.command = line, command
        self.out, self.err, self.status = None, None, None

    def wanted(self):
        texts = [text.bytes() if text else b"" for text in (self.out, self.err)]
        return (*texts, self.status or 0)


class Row:
    """A name and its steps: (directive, words, text), a run being ('run', Run, None)."""

    def __init__(self, file, line, name):
        self.file, self.line, self.name = file, line, name
        self.steps = []

    def runs(self):
        return [step[1] for step in self.steps if step[0] == "run"]


def state_bytes(listing):
    """A side of version 2 whose listing this is; a line of four blanks and `?` says that prerequisites are unknown."""
    records = []
    for line in listing.decode("utf-8", "surrogateescape").split("\n")[:-1]:
        add_line_of_listing(records, line)
    body = b"".join(kept_record(*record) for record in records)
    header = b"\x01DMKSTATE" + struct.pack("<HQ", 2, 1)
    if not records:
        return header + b"\0"
    return header + b"\x01" + struct.pack("<II", len(body), len(records)) + body + b"\0"


def add_line_of_listing(records, line):
    """A record is name, phase, status, commands, hidden and explicit prerequisites (None: unknown)."""
    if not line.startswith("    "):
        phase, name = (line.split(" ", 1) + [""])[:2]
        status = "0"
        if phase == "failed":
            name, status = (name.rsplit(" ", 1) + [""])[:2]
        if phase not in ("begun", "done", "failed") or not name or not status.isdigit():
            raise Fault("no line of a state's listing: " + line)
        phases = {"begun": 1, "done": 2, "failed": 3}
        records.append([name, phases[phase], int(status), [], [], [] if phase == "done" else None])
    elif not records or line[4:6] not in ("$ ", "> ", "< ", ": ", "?") or (line[4] == ">" and not records[-1][3]):
        raise Fault("no line of a state's listing: " + line)
    elif line[4] == "?":
        records[-1][5] = None
    elif line[4] == ">":
        records[-1][3][-1] += "\n" + line[6:]
    elif line[4] == ":" and records[-1][5] is None:
        raise Fault("prerequisites that are unknown have names: " + line)
    else:
        records[-1]["$<:".index(line[4]) + 3].append(line[6:])


def text_bytes(text):
    text = text.encode("utf-8", "surrogateescape")
    return struct.pack("<I", len(text)) + text


def list_bytes(texts):
    return struct.pack("<I", len(texts)) + b"".join(text_bytes(text) for text in texts)


def kept_record(name, phase, status, commands, hidden, explicit):
    known = b"\0" if explicit is None else b"\x01" + list_bytes(explicit)
    fields = text_bytes(name) + struct.pack("<BI", phase, status) + list_bytes(commands) + list_bytes(hidden)
    return b"\x04" + fields + known


class Reader:
    """Reads one file: its rows, and the faults of the file itself as (line, text)."""

    def __init__(self, file):
        self.file, self.rows, self.faults = file, [], []
        self.text = None

    def read(self):
        with open(self.file, "rb") as source:
            lines = source.read().split(b"\n")
        if lines.pop():
            self.faults.append((len(lines) + 1, "the last line has no newline"))
        for number, line in enumerate(lines, 1):
            try:
                self.read_line(number, line)
            except Fault as fault:
                self.faults.append((number, str(fault)))
        self.look_at_rows(len(lines))
        return self

    def read_line(self, number, line):
        if not line or line.startswith(b"#"):
            return
        if self.text is not None and self.text.add(line):
            return
        word, _, rest = line.decode("utf-8", "surrogateescape").partition(" ")
        self.text = None
        if word == "row":
            self.rows.append(Row(self.file, number, rest))
        elif not self.rows:
            raise Fault("no row is begun")
        else:
            self.read_directive(number, word, rest)

    def read_directive(self, number, word, rest):
        row, runs = self.rows[-1], self.rows[-1].runs()
        if word in ("file", "state", "env", "time", "hex", "fifo", "left", "run") and not rest:
            raise Fault("'%s' of nothing" % word)
        if word == "run":
            row.steps.append(("run", Run(number, rest), None))
        elif word in ("file", "state"):
            self.text = Text()
            row.steps.append((word, rest, self.text))
        elif word == "hex":
            name, _, text = rest.partition(" ")
            row.steps.append((word, name, hex_bytes(text.encode("utf-8", "surrogateescape"))))
        elif word == "time" and re.fullmatch(r".+ -?\d+", rest):
            row.steps.append((word, *rest.rsplit(" ", 1)))
        elif word == "env" and "=" in rest:
            row.steps.append((word, *rest.split("=", 1)))
        elif word in ("fifo", "left"):
            self.read_fifo(row, word, rest)
        elif word in ("out", "err", "status") and runs and getattr(runs[-1], word) is None:
            self.read_answer(runs[-1], word, rest)
        else:
            raise Fault("no directive here: '%s'" % word)

    def read_fifo(self, row, word, rest):
        name, _, text = rest.partition(" ")
        is_there = any(step[:2] == ("fifo", name) for step in row.steps)
        if is_there != (word == "left"):
            raise Fault("a second FIFO %s" % name if is_there else "no FIFO %s" % name)
        row.steps.append((word, name, text.encode("utf-8", "surrogateescape")))

    def read_answer(self, run, word, rest):
        if word == "status":
            if not re.fullmatch(r"\d+", rest):
                raise Fault("a status is a number")
            run.status = int(rest)
        elif rest:
            raise Fault("the answer stands in the lines below '%s'" % word)
        else:
            self.text = Text()
            setattr(run, word, self.text)

    def look_at_rows(self, lines):
        names = set()
        for row in self.rows:
            if not row.name.strip():
                self.faults.append((row.line, "a row without a name"))
            elif row.name in names:
                self.faults.append((row.line, "a second row of this name: " + row.name))
            names.add(row.name)
            if not row.runs():
                self.faults.append((row.line, "a row without a run: " + row.name))
        if not self.rows:
            self.faults.append((max(lines, 1), "a file without a row"))
        self.rows = [row for row in self.rows if row.runs()]
