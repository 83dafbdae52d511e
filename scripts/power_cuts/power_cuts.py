#!/usr/bin/env python3
"""Cuts the power of virtual machines in which dmk, GNU make and ninja build a tree, at random moments; starts a machine again, and
looks at which targets each tool takes as up to date, and whether these have their right contents. A cut is wrong for a tool where
a target that isn't in its dry run hasn't its contents.

  power_cuts.py --work FOLDER --linux LINUX --dmk DMK [--tree NAME] [--tools LIST] [--profile NAME] [--expire N] [--first N]
                [--cuts N] [--at-once N]
  power_cuts.py --summary TABLE..

The machine is user-mode Linux (LINUX, such as Debian's linux.uml), one for each build. A cut is SIGKILL of it: what it had sent to
its disk is kept, in its order; what lies in its page cache is lost. So it shows which syncs are missing, not whether a device keeps
them. The file systems are ext4 as mke2fs makes them. Odd cuts are of builds from nothing ('fresh'), even ones of a tree that was
built and whose sources then all changed ('again'). Each is the first cut of its tree, and none falls within a compaction.

Tools: dmk, make, ninja; and two that have to be wrong at times, so that the check is seen to fail: dmk-unsynced-targets, whose
syncs of targets are taken out, and dmk-unsynced, which syncs nothing (built from nothing it loses its state with the targets, and
is right). For dmk a cut is also wrong where it refuses what was left, where a further run doesn't end well or leaves a wrong target
or anything to be done, and where it then doesn't see that a hidden prerequisite has changed.

It needs user-mode Linux with ext4 built in, mke2fs 1.43 or later, gcc, static busybox, ldd, make and ninja. FOLDER, best a new one
on a tmpfs, wants some 300 MB for each machine. It writes FOLDER/table.tsv, a line for each cut and tool; FOLDER/kept/ has what is
left of the cuts that are wrong for dmk, and FOLDER/cutN of those that couldn't be judged. The status is 0 only where each cut was
judged, none of them is wrong for dmk, and each tool without syncs was wrong at least once.
"""
import argparse
import collections
import concurrent.futures
import csv
import pathlib
import random
import re
import shutil
import subprocess
import sys
import tarfile
import threading
import traceback

import farm_tree
import tree
from machine import Machines, call, copy_of, wait_for_end

TREES = {"recipes": tree, "farm": farm_tree}
CONTROLS = ["dmk-unsynced-targets", "dmk-unsynced"]
TOOLS = ["dmk", "make", "ninja", *CONTROLS]
# What is asked of dmk alone, behind the cut.
FURTHER = ["again_status", "wrong_after", "left_over", "unseen"]
COLUMNS = ["cut", "tree", "expire", "seconds", "tool", "ended", "there", "right", "dry_status", "up_to_date", "wrong",
           "done_recorded", *FURTHER, "wrong_targets"]
PROGRAMS = ["mke2fs", "gcc", "busybox", "make", "ninja", "ldd"]
# A cut falls at this moment of the build or behind it, in seconds.
EARLIEST = 0.2


def is_wrong(row):
    return any(row[column] != 0 for column in ["wrong", *(["dry_status", *FURTHER] if row["tool"] == "dmk" else [])])


class PowerCuts:
    def __init__(self, args):
        self.args, self.tools = args, args.tools.split(",")
        self.work = pathlib.Path(args.work).resolve()
        self.table = self.work / "table.tsv"
        self.machines = Machines(args, self.work)
        self.tree = TREES[args.tree]
        self.right = {"fresh": self.tree.digests(1), "again": self.tree.digests(2)}
        self.lengths = {}
        self.lock, self.wrong = threading.Lock(), collections.Counter()

    def make_compiler(self):
        place, self.machines.compiler = self.work / "usr", self.work / "usr.disk"
        farm_tree.write_compiler(place)
        call("truncate", "-s", "256M", self.machines.compiler)
        call("mke2fs", "-q", "-t", "ext4", "-d", place, self.machines.compiler)
        shutil.rmtree(place)

    def make_disks(self):
        """For each tool a disk with a tree from which nothing was built, and one with a tree that was built from older sources. The
        tool has to name no target of a tree that is whole, and all of one whose sources have changed."""
        for tool in self.tools:
            place, image = self.work / "tree", self.work / "image"
            self.tree.write(place, tool)
            call("truncate", "-s", "256M", image)
            call("mke2fs", "-q", "-t", "ext4", "-b", "4096", "-N", "4096", "-E", "lazy_itable_init=0,lazy_journal_init=0", "-d",
                 place, image)
            for kind in self.right:
                copy_of(image, self.work / f"{kind}.{tool}")
            shutil.rmtree(place)
            image.unlink()
        disks = [self.work / f"again.{tool}" for tool in self.tools]
        said = set(wait_for_end(self.machines.start("prepare", self.tools, disks), "PREPARED").splitlines())
        for tool in self.tools:
            for line in (f"END {tool} 0", f"WHOLE {tool} 0", f"CHANGED {tool} {self.tree.COUNT}"):
                if line not in said:
                    sys.exit(f"power_cuts.py: no '{line}': " + "\n".join(sorted(said)))

    def new_disks(self, place, kind):
        disks = [place / f"{tool}.disk" for tool in self.tools]
        for tool, image in zip(self.tools, disks):
            copy_of(self.work / f"{kind}.{tool}", image)
        return disks

    def build_without_cuts(self):
        for kind in self.right:
            place = self.work / f"whole-{kind}"
            place.mkdir()
            for tool, disk in zip(self.tools, self.new_disks(place, kind)):
                self.lengths[tool, kind] = self.machines.build(tool, disk, None)
                print(f"{kind} without a cut: {tool} {self.lengths[tool, kind]:.1f} s", flush=True)
            shutil.rmtree(place)

    def answers_of(self, place, disks):
        """What the tools say of the disks as the cut left them, in a folder."""
        image, answers = place / "answers.disk", place / "answers"
        call("truncate", "-s", "32M", image)
        wait_for_end(self.machines.start("judge", self.tools, [*disks, image]), "JUDGED")
        with tarfile.open(image) as tar:
            tar.extractall(answers)
        return answers

    def one_cut(self, cut):
        chance = random.Random(f"{self.args.seed} {cut}").random()
        kind = "fresh" if cut % 2 else "again"
        place = self.work / f"cut{cut}"
        place.mkdir()
        disks, rows = self.new_disks(place, kind), []
        for tool, disk in zip(self.tools, disks):
            seconds = EARLIEST + chance * (self.lengths[tool, kind] + self.args.after)
            ended = self.machines.build(tool, disk, seconds) is not None
            rows.append({"cut": cut, "tree": kind, "expire": self.args.expire, "seconds": f"{seconds:.2f}", "tool": tool,
                         "ended": "yes" if ended else "no"})
        if "dmk" in self.tools:
            copy_of(place / "dmk.disk", place / "dmk.left")
        answers = self.answers_of(place, disks)
        for row in rows:
            row.update(self.judge(answers / row["tool"], row["tool"], self.right[kind]))
        with self.lock, open(self.table, "a", newline="") as table:
            csv.DictWriter(table, COLUMNS, delimiter="\t").writerows(rows)
            self.wrong.update(row["tool"] for row in rows if is_wrong(row))
        if any(row["tool"] == "dmk" and is_wrong(row) for row in rows):
            place.rename(self.work / "kept" / place.name)
        else:
            shutil.rmtree(place)

    def judge(self, place, tool, right):
        def digests_of(name):
            found = (line.split("  ", 1) for line in (place / name).read_text().splitlines())
            return {target: digest for digest, target in found}

        def status_of(name):
            return int((place / name).read_text())

        def named(name):
            return set(re.findall(r"@([^@\s]+)@", (place / name).read_text(errors="replace")))

        digests, status, listed = digests_of("sums"), status_of("dry.status"), named("dry")
        # A tool that refuses takes nothing as up to date.
        trusted = [target for target in self.tree.ALL if target.tag not in listed] if status == 0 else []
        wrong = [target for target in trusted if digests.get(target.name) != right[target.name]]
        row = dict.fromkeys(FURTHER, "-")
        if tool == "dmk":
            after, hidden = digests_of("again.sums"), {target.tag for target in self.tree.ALL if target.kind == "hidden"}
            row = {
                "again_status": status_of("again.status"),
                "wrong_after": sum(after.get(target.name) != right[target.name] for target in self.tree.ALL),
                "left_over": len(named("left_over")), "unseen": len(hidden - named("hidden")),
            }
        row.update({
            "there": len(digests), "right": sum(digests.get(target.name) == right[target.name] for target in self.tree.ALL),
            "dry_status": status, "up_to_date": len(trusted), "wrong": len(wrong), "done_recorded": self.recorded(place, tool),
            "wrong_targets": ",".join(f"{target.tag}:{target.kind}" for target in wrong) or "-",
        })
        return row

    def recorded(self, place, tool):
        """How many targets the state has as done."""
        side = place / ".make.state"
        if not self.args.dmk_state or not tool.startswith("dmk") or not side.exists():
            return "-"
        told = subprocess.run([self.args.dmk_state, side], capture_output=True, text=True, errors="replace")
        return len(re.findall("^done out/", told.stdout, re.M)) if told.returncode == 0 else "refused"

    def make_cuts(self):
        """How many couldn't be judged."""
        unjudged = 0
        with concurrent.futures.ThreadPoolExecutor(self.args.at_once) as pool:
            cuts = range(self.args.first, self.args.first + self.args.cuts)
            waits = {pool.submit(self.one_cut, cut): cut for cut in cuts}
            try:
                for wait in concurrent.futures.as_completed(waits):
                    fault = wait.exception()
                    if fault is not None:
                        unjudged += 1
                        told = traceback.format_exception(type(fault), fault, fault.__traceback__)
                        print(f"cut {waits[wait]} not judged:", *told, flush=True)
            except KeyboardInterrupt:
                for wait in waits:
                    wait.cancel()
                raise
        return unjudged

    def run(self):
        for program in filter(None, (self.args.linux, self.args.dmk, self.args.dmk_state, *PROGRAMS)):
            if shutil.which(program) is None:
                sys.exit(f"power_cuts.py: no {program}")
        if self.table.exists():
            sys.exit(f"power_cuts.py: there is a {self.table} already")
        (self.work / "kept").mkdir(parents=True, exist_ok=True)
        self.machines.make_initramfs()
        if self.args.tree == "farm":
            self.make_compiler()
        self.make_disks()
        self.build_without_cuts()
        self.table.write_text("\t".join(COLUMNS) + "\n")
        unjudged = self.make_cuts()
        for name in ("uml", "root"):
            shutil.rmtree(self.work / name, ignore_errors=True)
        show([self.table])
        blind = [tool for tool in self.tools if tool in CONTROLS and self.wrong[tool] == 0]
        for tool in blind:
            print(f"{tool} was never wrong: the check wasn't seen to fail")
        print(f"{self.args.cuts - unjudged} cuts judged, {unjudged} not; wrong for dmk: {self.wrong['dmk']}")
        return int(unjudged != 0 or self.wrong["dmk"] != 0 or bool(blind))


def show(tables):
    """Prints for each tool, and each tool and tree, what came of all its cuts, and of those that fell before its build's end."""
    groups = collections.defaultdict(list)
    for table in tables:
        with open(table, newline="") as file:
            for row in csv.DictReader(file, delimiter="\t"):
                kinds = ["all", row["tree"], *(["within the build"] if row["ended"] == "no" else [])]
                for kind in kinds:
                    groups[row["tool"], kind].append(row)
    print("tool\ttree\tcuts\twrong\twrong_in_all\tmost_in_a_cut\trefused\tup_to_date\tright")
    for (tool, kind), rows in sorted(groups.items(), key=lambda group: (TOOLS.index(group[0][0]), group[0][1])):
        wrong = [int(row["wrong"]) for row in rows]
        print(tool, kind, len(rows), sum(count > 0 for count in wrong), sum(wrong), max(wrong),
              sum(row["dry_status"] != "0" for row in rows), sum(int(row["up_to_date"]) for row in rows),
              sum(int(row["right"]) for row in rows), sep="\t")


def at_least_one(text):
    number = int(text)
    if number < 1:
        raise argparse.ArgumentTypeError("at least 1")
    return number


def main():
    parser = argparse.ArgumentParser(description=__doc__, formatter_class=argparse.RawDescriptionHelpFormatter)
    parser.add_argument("--summary", nargs="+", metavar="TABLE")
    for name in ("--work", "--linux", "--dmk"):
        parser.add_argument(name, help="needed but for --summary")
    parser.add_argument("--dmk-state", help="lists the state that each cut left; without it that column is '-'")
    parser.add_argument("--tree", choices=TREES, default="recipes", help="recipes: those of tree.py; farm: examples/farm, which gcc"
                        " compiles in the machine")
    parser.add_argument("--memory", type=at_least_one, default=192, help="of a machine, in MiB")
    parser.add_argument("--tools", default="dmk,make,ninja,dmk-unsynced-targets", help="of " + ",".join(TOOLS))
    parser.add_argument("--profile", choices=("strict", "posix"), default="strict", help="of dmk, by DMK_PROFILE")
    parser.add_argument("--first", type=int, default=1)
    parser.add_argument("--cuts", type=at_least_one, default=100)
    parser.add_argument("--at-once", type=at_least_one, default=1)
    parser.add_argument("--pause", default="0.2", help="seconds that each recipe sleeps")
    parser.add_argument("--after", type=float, default=3, help="a cut falls at most so many seconds behind the end of the build")
    parser.add_argument("--expire", type=int, default=3000, help="after so many hundredths of a second the machine's kernel writes"
                        " data by itself (vm.dirty_expire_centisecs); 3000 is Linux's own")
    parser.add_argument("--seed", default="1")
    args = parser.parse_args()
    if args.summary:
        return show(args.summary)
    if None in (args.work, args.linux, args.dmk):
        parser.error("--work, --linux and --dmk are needed")
    tools = args.tools.split(",")
    if not set(tools) <= set(TOOLS) or len(set(tools)) != len(tools):
        parser.error("a tool that isn't known, or one twice")
    args.dmk = shutil.which(args.dmk) or args.dmk
    return PowerCuts(args).run()


if __name__ == "__main__":
    sys.exit(main())
