#!/usr/bin/env python3
"""Tries wrong bodies, many in one check: the prover has to refuse each, at a goal that the bug makes false.

An edit crates/CRATE/planted/NAME.edit has the form of a must-fail edit (a line 'file: src/..', then pairs of lines
'old: TEXT' and 'new: TEXT', each old text standing once in that file), and one or more lines 'goal: NAME': the goals that
it makes false. Without such a line it has to be refused as false or open.

On a copy of the crate each edit becomes a function of its own beside the one that it changes: the same contract, a copy
of the stored proof, the edited body. Beside it stands the body as it is, which has to be proved (the control). One check
judges them all. Where that can't be (a method of a trait, a cycle of calls, two functions, a control that isn't proved),
the edit is tried in place, in a check of the whole crate, as `rt must-fail` tries it.

An edit fails that isn't applied, doesn't compile, isn't judged or passes; and one that is refused at none of its goals, or
only since a stored proof names what the edit took away. So does a folder planted/ without edits. A refusal is of a kind:
  false   the facts that are known at the goal allow values at which it is false
  open    the goal isn't proved
  limit   the same, but the search for a proof broke off at a limit
  answer  the stored proof of the goal doesn't prove it any more

scripts/planted.record has for each crate a sum of all that its verdicts rest on (kit, files, edits, what these name of the
crates below). A crate whose sum is there is passed over, but for --all. --stale tries nothing and lists the crates that
would be tried, with status 1 where there are any. --record writes the sums of those that passed, and 'goal:' lines into edits
that have none. The last line is 'N passed, M failed'.
"""
import argparse
import concurrent.futures
import os
import shutil
import sys
import tempfile
import threading
import time

sys.dont_write_bytecode = True  # a test leaves nothing in scripts/

from planted import record
from planted.edits import STEM, BadEdit, NotBeside, Plant, goals_of, placed
from planted.toolchain import rt, rtlib, source_of
from planted.verdicts import no_body, nothing, try_beside, try_in_place


def beside(crate, source, edits, flags, kept, log):
    """Tries each edit beside its function. Returns what was found of each and its seconds, and why others can't stand so."""
    plants, controls, judged, others = [], {}, {}, {}
    for edit in edits:
        try:
            function, text = placed(crate, source, edit)
        except BadEdit as fault:
            judged[edit] = no_body(str(fault)), 0.0
        except NotBeside as why:
            others[edit] = str(why)
        else:
            plants.append(Plant(function, edit, text, len(plants) + len(controls)))
            right = source.data[function.file][function.first : function.end]
            controls.setdefault(function, Plant(function, None, right, len(plants) + len(controls)))
    try_beside(crate, source, [*plants, *controls.values()], flags, kept, log)
    for plant in plants:
        control = controls[plant.beside].finding
        if plant.finding.kind != "no body" and control.kind != "proved":
            others[plant.edit] = f"the body as it is wasn't proved beside it: {control.kind}: {control.why}"
        elif plant.finding.kind == "nothing":
            others[plant.edit] = plant.finding.why
        else:
            judged[plant.edit] = plant.finding, plant.seconds
    return judged, others


def in_place(crate, edits, flags, kept, log):
    """Tries each edit in place, where the crate as it is can be proved so."""
    control = try_in_place(crate, {}, flags, kept, log) if edits else None
    for edit in edits:
        texts, why = rt.read_edit(edit, crate.folder)
        if why:
            yield edit, no_body(why)
        elif control.kind != "proved":
            yield edit, nothing(f"the crate as it is wasn't proved: {control.kind}: {control.why}")
        else:
            yield edit, try_in_place(crate, texts, flags, kept, log)


def verdict(finding, goals, wants_goals):
    """Returns whether what was found of an edit is the refusal that it wants, and what to say."""
    if finding.kind == "no body":
        return False, f"BAD EDIT: {finding.why}"
    if finding.kind == "nothing":
        return False, f"NOT JUDGED: {finding.why}"
    if finding.kind == "proved":
        return False, "PASSED: the contract lets it through"
    if finding.kind == "names":
        return False, f"REFUSED BY NAMES ALONE: change a value and keep the names: {finding.why}"
    if wants_goals and not goals:
        # A goal that isn't proved shows by itself what is wrong; one whose proof was not found, or doesn't fit, doesn't.
        is_shown, places = finding.kind in ("false", "open"), ", ".join(sorted(finding.goals))
        return is_shown, f"{'' if is_shown else 'BAD EDIT: '}no line 'goal: NAME'; refused ({finding.kind}) at {places}"
    if goals and not finding.goals & goals:
        return False, f"REFUSED ELSEWHERE than at {' or '.join(sorted(goals))} ({finding.kind}): {finding.why}"
    return True, f"refused ({finding.kind}): {finding.why}"


def name_goals(edit, finding):
    """Writes the goals at which an edit is refused into its file."""
    with open(edit, "a", encoding="utf-8") as file:
        file.writelines(f"goal: {name}\n" for name in sorted(finding.goals))


def try_crate(crate, edits, wants_goals, options, log):
    """Returns for each edit whether it is refused as it has to be, and what to say."""
    source, flags, keeps = source_of(crate), ["--jobs", options.jobs], options.kept
    if any(STEM.encode() in text for text in source.data.values()):
        return {it: (False, f"BAD EDIT: a name of the crate has {STEM}") for it in edits}

    def answer(edit, finding):
        goals = goals_of(edit)
        well, text = verdict(finding, goals, wants_goals)
        if options.record and wants_goals and well and not goals:
            name_goals(edit, finding)
            text += " (written into the edit)"
        return well, text

    with tempfile.TemporaryDirectory(prefix="planted-kept-") as kept:
        if keeps and crate.has_kept():
            shutil.copytree(f"{crate.folder}/out/incremental", kept, dirs_exist_ok=True, copy_function=shutil.copyfile)
        judged, others = beside(crate, source, edits, flags, kept, log)
        answers = {}
        for edit, (finding, seconds) in judged.items():
            well, text = answer(edit, finding)
            answers[edit] = well, f"{seconds:.0f} s: {text}"
        for edit, finding in in_place(crate, others, flags, kept, log):
            well, text = answer(edit, finding)
            answers[edit] = well, f"in place, since {others[edit]}: {text}"
    return answers


def is_fresh(crate):
    """Whether the crate's library is built, and no older than any file that it is made from."""
    files = [it for one in [crate, *crate.below()] for it in rtlib.files_of(one.folder)]
    return os.path.isdir(crate.rlib) and os.path.getmtime(f"{crate.rlib}/format") >= max(map(os.path.getmtime, files))


class Run:
    """Counts of a whole run, over the crates that it is given. Several crates may be tried at once."""

    def __init__(self, options):
        self.options, self.known, self.building, self.telling = options, record.read(), threading.Lock(), threading.Lock()
        self.passed = self.failed = self.tried = self.recorded = 0

    def tell(self, name, well, text):
        print(f"{name}: {text}", flush=True)
        self.passed, self.failed = self.passed + well, self.failed + (not well)

    def lacks_libraries(self, crate):
        """Whether a library below the crate isn't proved. One that isn't there, or is older than its text, is built first."""
        if self.options.built:
            return not all(os.path.isdir(it.rlib) for it in crate.below())
        with self.building:
            return any(not is_fresh(it) and it.build_rlib(["--jobs", self.options.jobs], anew=False) for it in crate.below())

    def files_of(self, crate):
        """Returns the names of the files in the crate's folder of edits, and the paths of its edits."""
        folder = f"{crate.folder}/{self.options.folder}"
        files = sorted(os.listdir(folder)) if os.path.isdir(folder) else []
        return files, [f"{folder}/{it}" for it in files if it.endswith(".edit")]

    def is_recorded(self, crate, edits):
        return self.known.get(crate.name) == (record.key_of(crate, edits), len(edits))

    def crate(self, crate, log):
        """Tries the edits of a crate, unless they are recorded."""
        files, edits = self.files_of(crate)
        is_planted = self.options.folder == "planted"
        is_known = bool(edits) and is_planted and not self.options.all and self.is_recorded(crate, edits)
        started, answers, why = time.monotonic(), {}, None if edits else f"no edits in {self.options.folder}/"
        if edits and not is_known:
            why = "a library below it isn't proved" if self.lacks_libraries(crate) else None
            answers = {} if why else try_crate(crate, edits, is_planted, self.options, log)
        with self.telling:
            before = self.failed
            for odd in [it for it in files if not it.endswith((".edit", ".md"))]:
                self.tell(f"{crate.name}/{odd}", False, "BAD EDIT: an edit's name ends in .edit")
            if why:
                self.tell(crate.name, False, why)
            elif is_known:
                print(f"{crate.name}: {len(edits)} edits, as recorded")
                self.passed, self.recorded = self.passed + len(edits), self.recorded + len(edits)
            else:
                self.tried += len(edits)
                print(f"{crate.name}: {len(edits)} edits, {time.monotonic() - started:.0f} s")
                for edit in edits:
                    self.tell(f"{crate.name}/{os.path.basename(edit)}", *answers[edit])
                if self.options.record and is_planted:
                    self.note(crate, edits, self.failed == before)

    def note(self, crate, edits, is_well):
        """Writes a crate that passed into the record, and takes one that failed out of it."""
        self.known.pop(crate.name, None)
        if is_well:
            self.known[crate.name] = record.key_of(crate, edits), len(edits)
        record.write(self.known)

    def stale(self, crates):
        """Lists the crates whose edits would be tried, and returns how many."""
        known = {it.name: self.is_recorded(it, self.files_of(it)[1]) for it in crates}
        for crate in [it for it in crates if not known[it.name]]:
            print(f"{crate.name}: {len(self.files_of(crate)[1])} edits, not as recorded")
        return len(crates) - sum(known.values())


def options_of(words):
    parser = argparse.ArgumentParser(description=__doc__, formatter_class=argparse.RawDescriptionHelpFormatter)
    parser.add_argument("crates", nargs="*", metavar="CRATE", help="the crates to try (each that has planted/)")
    parser.add_argument("--all", action="store_true", help="try recorded crates too")
    parser.add_argument("--stale", action="store_true", help="list the crates whose edits are not as recorded, and try none")
    parser.add_argument("--record", action="store_true", help="write the record, and the goals of edits that name none")
    parser.add_argument("--kept", action="store_true", help="begin with the work that `rt check` kept in out/")
    other = "take the edits of another folder, such as must-fail, which need no goal"
    parser.add_argument("--from", dest="folder", default="planted", metavar="FOLDER", help=other)
    parser.add_argument("--jobs", default="1", help="jobs of a check")
    parser.add_argument("--lanes", default=1, type=int, help="how many crates are tried at once (1)")
    parser.add_argument("--built", action="store_true", help="the libraries in out/ are those of this text: `rt ci` has just passed")
    parser.add_argument("--log", default=os.devnull, metavar="FILE", help="where to put what the checks print")
    return parser.parse_args(words)


def main(words):
    options = options_of(words)
    os.chdir(os.path.dirname(os.path.dirname(os.path.abspath(__file__))))
    crates = {it.name: it for it in rtlib.crates_below(os.getcwd())}
    names = options.crates or [it for it in crates if os.path.isdir(f"{crates[it].folder}/{options.folder}")]
    run = Run(options)
    if options.stale:
        return 1 if run.stale([crates[it] for it in names if it in crates]) else 0
    for name in names:
        if name not in crates:
            run.tell(name, False, "crates.txt has no such crate")
    rtlib.guarded()  # its first call sets a signal's handler, which only the main thread may
    with open(options.log, "w", buffering=1, encoding="utf-8") as log, concurrent.futures.ThreadPoolExecutor(options.lanes) as lanes:
        for done in [lanes.submit(run.crate, crates[name], log) for name in names if name in crates]:
            done.result()
    if not names:
        run.tell("planted", False, "no edits were found")
    print(f"{run.tried} edits were tried for want of a record, {run.recorded} are as recorded")
    print(f"{run.passed} passed, {run.failed} failed")
    return 1 if run.failed else 0


if __name__ == "__main__":
    sys.exit(main(sys.argv[1:]))
