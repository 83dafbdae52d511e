"""What the crates below a crate state, as far as its files name it.

A statement is a Rust item less the bodies of its functions, one name of a `use` line with its path, or a definition of
specs/. It counts where each word of its name stands in the crate's files, or in a statement that counts. What isn't public
counts only where a statement of its own crate names it: the type of a field, the import behind a clause's word. Private
functions, attributes and comments never count. Where two things have one name both count: too much rather than too little.
"""
import collections
import functools
import hashlib
import json
import os
import re
import tempfile
import threading

from .toolchain import KIT, bodies, rtlib

# One crate is read at a time: several threads may ask for the same one.
READING = threading.Lock()

WORD = re.compile(r"\w+")
COMMENT = re.compile(r'(?s){-.*?-}|(?<![^ \n(){}.;,@"»])--[^\n]*')
WHOLE_LINE_COMMENT = re.compile(r"(?m)^\s*(?://|--).*$")

# name: the words by which others name it. words: all words of its text.
Statement = collections.namedtuple("Statement", "crate is_public name words text")
# In tokens, where an item begins, its keyword stands, its body (or `;`) begins, and it ends.
Item = collections.namedtuple("Item", "is_public start at opens close")


def words_of(text):
    return frozenset(WORD.findall(text))


def named_below(crate, files):
    """Returns the crate and the text of each statement below the crate that these files name."""
    named = set().union(*(words_of(WHOLE_LINE_COMMENT.sub("", rtlib.text_of(it) or "")) for it in files))
    inside, counted = collections.defaultdict(set), set()
    left = [it for below in crate.below() for it in statements_of(below)]
    while new := [it for it in left if it.name <= (named if it.is_public else inside[it.crate])]:
        for it in new:
            counted.add((it.crate, it.text))
            inside[it.crate] |= it.words
            named |= it.words
        left = [it for it in left if (it.crate, it.text) not in counted]
    return sorted(counted)


def statements_of(crate):
    """Returns the statements of a crate, each once."""
    with READING:
        return kept_statements(crate)


@functools.cache
def kept_statements(crate):
    """As above. They are kept in the crate's out/, with a sum of what they were read from."""
    kept, key = f"{crate.folder}/out/statements.json", sum_of_texts(crate)
    try:
        with open(kept, encoding="utf-8") as file:
            known = json.load(file)
        if known["key"] == key:
            return [Statement(crate.name, row[0], frozenset(row[1]), frozenset(row[2]), row[3]) for row in known["rows"]]
    except (OSError, ValueError, KeyError):
        pass  # nothing is kept, or not of this form
    found = read_statements(crate)
    rows = [[it.is_public, sorted(it.name), sorted(it.words), it.text] for it in found]
    os.makedirs(os.path.dirname(kept), exist_ok=True)
    with tempfile.NamedTemporaryFile("w", dir=os.path.dirname(kept), delete=False, encoding="utf-8") as file:
        json.dump({"key": key, "rows": rows}, file)
    os.replace(file.name, kept)
    return found


def sum_of_texts(crate):
    """Returns a sum of all that a crate's statements are read from: its src/ and specs/, the toolchain's lexer, and this file."""
    texts = [it for it in rtlib.files_of(crate.folder) if not it.startswith(f"{crate.folder}/proofs/")]
    rows = [(os.path.relpath(it, crate.folder), rtlib.sum_of(it)) for it in texts]
    return hashlib.sha256(repr([rtlib.sum_of(f"{KIT}/KIT-ID"), rtlib.sum_of(__file__), *rows]).encode()).hexdigest()


def read_statements(crate):
    """Reads the statements of a crate, each once."""
    found = {}

    def add(is_public, name, words):
        text = " ".join(words)
        found[Statement(crate.name, is_public, words_of(name), words_of(text), text)] = None

    for file in rtlib.files_of(crate.folder):
        part = file.removeprefix(f"{crate.folder}/")
        if part.startswith("src/"):
            code, texts = tokens_of(crate, part)
            add_items(add, code, texts, 0, len(code))
        elif part.startswith("specs/"):
            add_definitions(add, COMMENT.sub("", rtlib.text_of(file)))
    return list(found)


def tokens_of(crate, file):
    """Returns a Rust file's tokens less attributes and comments: as code, in which no clause has brackets, and as texts."""
    rows, _ = bodies.Source(crate.folder).tokens(file)
    code = [it[4] if it[3] in ("Code", "Literal") else "antt" for it in rows]
    kept, at = [], 0
    while at < len(rows):
        if code[at] == "#":
            at = bodies.after(code, at + 1 + (code[at + 1] == "!"))
        else:
            kept += [at] * (not code[at].startswith("//"))
            at += 1
    return [code[it] for it in kept], [rows[it][4] for it in kept]


def items(code, at, end):
    """Yields the items between two tokens."""
    while at < end:
        start, is_public = at, code[at : at + 1] == ["pub"] and code[at + 1] != "("
        if code[at] == "pub":
            at = at + 1 if is_public else bodies.after(code, at + 1)
        while code[at] in bodies.QUALIFIERS and code[at + 2] != ":":
            at += 1
        # Only in these heads is < a bracket.
        is_typed = code[at] in ("fn", "impl", "trait", "struct", "enum")
        opens = bodies.until(code, at, "{", ";") if is_typed else at
        while code[opens] not in "{;":
            opens = bodies.after(code, opens) if code[opens] in "([" else opens + 1
        close = bodies.after(code, opens)
        yield Item(is_public, start, at, opens, close)
        at = close


def add_items(add, code, texts, at, end, owner="", head=()):
    """Adds what the items between two tokens state. owner, head: the type and the head of the `impl` around them."""
    for it in items(code, at, end):
        text = texts[it.at : it.close]
        if "use" in text[:2]:
            add_names(add, it.is_public, text[text.index("use") + 1 : -1])
        elif code[it.at] == "fn" and it.is_public:
            add(True, f"{text[1]} {owner}", [*head, *texts[it.at : it.opens]])
        elif code[it.at] in ("struct", "enum", "type", "const", "static"):
            add(it.is_public, text[1], text)
        elif code[it.at] in ("impl", "trait"):
            block = bodies.Block(code[it.at], code[it.at + 1 : it.opens], False, None)
            name = text[1] if block.is_trait else owner_of(block)
            add(it.is_public or not block.is_trait, name, without_bodies(code, texts, it, bool(block.trait)))
            add_items(add, code, texts, it.opens + 1, it.close - 1, name, texts[it.at : it.opens])


def owner_of(block):
    """Returns the name of the type of an `impl`, or nothing where that is a type parameter."""
    path = block.ty[: block.ty.index("<")] if "<" in block.ty else block.ty
    return next((word for word in reversed(path) if word.isidentifier() and word not in block.generics), "")


def without_bodies(code, texts, block, has_functions):
    """Returns the text of an `impl` or a `trait` less its `use` lines and bodies of functions, or less its functions."""
    text = texts[block.at : block.opens]
    for it in items(code, block.opens + 1, block.close - 1):
        is_function = code[it.at] == "fn"
        if (has_functions or not is_function) and "use" not in texts[it.at : it.at + 2]:
            text += texts[it.start : it.opens if is_function else it.close]
    return text


def add_names(add, is_public, words):
    """Adds each name of a `use` line."""
    for path in paths(words):
        add(is_public, path[-1].rpartition(".")[2], ["use", *path])


def paths(words):
    if "{" not in words:
        return [words]
    at = words.index("{")
    return [words[:at] + path for part in bodies.split(words[at + 1 : -1]) for path in paths(part)]


def add_definitions(add, text):
    """Adds the definitions of a file of specs/: all that begins at its left edge with the same name."""
    groups = collections.defaultdict(list)
    for part in re.split(r"(?m)^(?=\S)", text):
        words = re.findall(r"[{},]|[^\s{},]+", part)
        name = next((it for it in words if it not in bodies.MARKS), "")
        if name == "use":
            add_names(add, "pub" in words[:1], words[words.index("use") + 1 :])
        elif name and name != "mod":
            groups[name].append((part, words))
    for name, parts in groups.items():
        first, head = parts[0]
        makers = re.findall(r"(?m)^  (\S+) :", first) if "data" in head[:2] else []
        for one in [name, *makers]:
            add("pub" in head[:2], one, sum((words for _, words in parts), []))
