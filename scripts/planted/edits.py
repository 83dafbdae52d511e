"""Planted edits: which function each changes, and the function that is put beside it."""
import os
import re

from .toolchain import rt, rtlib

STEM = "_planted"


class BadEdit(Exception):
    """The edit can't be applied, or says nothing of a body."""


class NotBeside(Exception):
    """What the edit changes can't stand in a function of its own, so it has to be tried in place."""


class Plant:
    """A function that is put beside another one: with an edit's body or, as the control, with the same body."""

    def __init__(self, beside, edit, text, number):
        self.beside, self.edit, self.text = beside, edit, text
        self.name = f"{beside.name}{STEM}{number}"
        self.finding, self.seconds = None, 0.0


def home_of(source, function):
    """Returns the module and the type by which proofs name a function. A method's module is that of its type."""
    if not function.block:
        return function.module, []
    modules = [module for module, *_ in source.declared[function.owner]]
    is_elsewhere = modules and function.module not in modules
    return modules[0] if is_elsewhere else function.module, [function.owner]


def goals_of(edit):
    """Returns the names of the goals that the edit's bug makes false, by its lines 'goal: NAME'."""
    return {*re.findall(r"(?m)^goal: (\S+)$", rtlib.text_of(edit) or "")}


def changed_span(was, now):
    """Returns where two texts begin to differ, and how many bytes at their ends are the same."""
    start, tail = len(os.path.commonprefix([was, now])), 0
    while tail < min(len(was), len(now)) - start and was[-1 - tail] == now[-1 - tail]:
        tail += 1
    return start, tail


def changes_contract(source, file, now):
    """Whether the head of a function of the file isn't in its new text any more."""
    was = source.data.get(file, b"")
    heads = {was[it.first : it.opens] for it in source.functions if it.file == file}
    return any(now.count(it) < was.count(it) for it in heads)


def placed(crate, source, edit):
    """Returns the function whose body the edit changes, and that function's new text."""
    texts, why = rt.read_edit(edit, crate.folder)
    if why:
        raise BadEdit(why)
    for file, text in texts.items():
        if changes_contract(source, file, text.encode()):
            raise BadEdit("it changes a contract")
    if len(texts) > 1:
        raise NotBeside("it changes two files")
    ((file, text),) = texts.items()
    if file not in source.data:
        raise NotBeside("it changes no file of src/")
    was, now = source.data[file], text.encode()
    if was == now:
        raise BadEdit("it changes nothing")
    start, tail = changed_span(was, now)
    end, more = len(was) - tail, len(now) - len(was)
    inside = [it for it in source.functions if it.file == file and it.has_body and it.opens < start and end < it.end]
    if len(inside) != 1:
        raise NotBeside("it changes what is in no function's body, or in two")
    (function,) = inside
    if function.in_trait or function.in_cycle:
        raise NotBeside("it changes a method of a trait, or a cycle of calls")
    return function, now[function.first : function.end + more]
