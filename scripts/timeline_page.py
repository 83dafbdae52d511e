#!/usr/bin/env python3
"""Opens the page of `dmk_tool timeline` in headless Chromium, and looks at what is seen: timeline_page.py [DMK_TOOL] (the built one if left out).

The log is written by hand; where a bar has to be, and in which colour, is reckoned from it. Looked at are the canvas, the table, what a search
finds, and the canvas once the wheel was turned; and the events of the trace that Perfetto opens. Where there is no Chromium a line says so.
The last line is 'N passed, M failed'.
"""
import json
import os
import re
import shutil
import subprocess
import sys
import tempfile
import traceback

TOP = os.path.dirname(os.path.dirname(os.path.abspath(__file__)))
TOOL = os.path.abspath(sys.argv[1] if len(sys.argv) > 1 else f"{TOP}/crates/dmk_tool/out/dmk_tool")
BROWSER = next(filter(None, map(shutil.which, ("chromium", "chromium-browser", "google-chrome"))), None)
SECOND = 10**9

# Two workers: `prog` waits for b.o, and then `check` fails.
LOG = [
    {"event": "run", "version": 1, "words": ["dmk", "--log", "b.log"], "profile": "posix", "workers": 2, "state": ".make.state", "ns": 0},
    {"event": "judged", "target": "a.o", "verdict": "out of date", "reason": "newer", "file": "a.c", "prerequisites": ["a.c"], "ns": 0},
    {"event": "begun", "target": "a.o", "worker": 0, "ns": 0},
    {"event": "judged", "target": "b.o", "verdict": "out of date", "reason": "newer", "file": "b.c", "prerequisites": ["b.c"], "ns": 0},
    {"event": "begun", "target": "b.o", "worker": 1, "ns": 0},
    {"event": "ended", "target": "a.o", "worker": 0, "status": 0, "ns": 4 * SECOND},
    {"event": "ended", "target": "b.o", "worker": 1, "status": 0, "ns": 6 * SECOND},
    {"event": "judged", "target": "prog", "verdict": "out of date", "reason": "made", "file": "a.o", "prerequisites": ["a.o", "b.o"], "ns": 6 * SECOND},
    {"event": "begun", "target": "prog", "worker": 0, "ns": 6 * SECOND},
    {"event": "commit", "batch": 1, "records": 4, "took_ns": SECOND, "ns": 7 * SECOND},
    {"event": "ended", "target": "prog", "worker": 0, "status": 0, "ns": 8 * SECOND},
    {"event": "judged", "target": "check", "verdict": "out of date", "reason": "no file", "prerequisites": ["a.o"], "ns": 8 * SECOND},
    {"event": "begun", "target": "check", "worker": 1, "ns": 8 * SECOND},
    {"event": "ended", "target": "check", "worker": 1, "status": 3, "ns": 9 * SECOND},
    {"event": "end", "status": 1, "made": 3, "failed": 1, "not_made": 0, "ns": 10 * SECOND},
]
IDLE, RECIPE, CRITICAL, FAILED, COMMIT = (232, 232, 232), (102, 153, 204), (204, 51, 51), (34, 34, 34), (51, 153, 51)
COMMITS, WORKER_0, WORKER_1 = 0, 1, 2

# Behind the page's own script: what is asked of it, and its answers as a last element.
ASKING = """
<script>
{
const answers = {};
const canvas_of_page = document.getElementById("lanes");
const width = canvas_of_page.clientWidth;
const pixel = (lane, part) =>
    [...canvas_of_page.getContext("2d").getImageData(Math.round(part * width), 22 + 24 * lane + 19, 1, 1).data].slice(0, 3);
const look = (name, places) => { answers[name] = places.map(([lane, part]) => pixel(lane, part)); };
const send = (id, event) => document.getElementById(id).dispatchEvent(event);
const typed = (text) => { document.getElementById("search").value = text; send("search", new Event("input")); };
const text_of = (id) => document.getElementById(id).textContent;
%s
const told = document.createElement("pre");
told.id = "answers";
told.textContent = JSON.stringify(answers);
document.body.append(told);
}
</script>
"""
PLACES = [(WORKER_0, .35), (WORKER_1, .35), (WORKER_0, .5), (WORKER_0, .79), (WORKER_1, .7), (WORKER_1, .88), (WORKER_0, .95), (COMMITS, .65), (COMMITS, .3)]
SEEN = [RECIPE, CRITICAL, IDLE, CRITICAL, IDLE, FAILED, IDLE, COMMIT, IDLE]


def written(folder, name, *words):
    done = subprocess.run([TOOL, "timeline", "b.log", *words, name], cwd=folder, capture_output=True, text=True, check=False)
    assert done.returncode == 0, done.stderr
    with open(f"{folder}/{name}", encoding="utf-8") as file:
        return file.read()


def asked(folder, script):
    """Returns the answers of the page to what a script asks of it."""
    page = written(folder, "page.html", "-o")
    with open(f"{folder}/asked.html", "w", encoding="utf-8") as file:
        file.write(page.replace("</body>", ASKING % script + "</body>"))
    words = [BROWSER, "--headless", "--no-sandbox", "--disable-gpu", "--window-size=1200,800", f"--user-data-dir={folder}/browser",
             "--virtual-time-budget=10000", "--dump-dom", f"file://{folder}/asked.html"]
    done = subprocess.run(words, capture_output=True, text=True, timeout=120, check=False)
    found = re.search('<pre id="answers">(.*?)</pre>', done.stdout, re.S)
    assert found, (done.returncode, done.stderr[-400:])
    return json.loads(found[1].replace("&gt;", ">").replace("&lt;", "<").replace("&amp;", "&"))


def colours(found):
    return [tuple(it) for it in found]


def bars_are_where_recipes_were_run(folder):
    found = asked(folder, f"look('seen', {json.dumps(PLACES)}); answers.told = text_of('told'); answers.words = text_of('words');")
    assert colours(found["seen"]) == SEEN, found
    assert found["words"] == "dmk --log b.log", found
    assert found["told"] == "run 1, 4 recipes, 2 workers, wall time 10.000 s, critical path 8.000 s, status 1", found


def the_longest_recipes_stand_in_the_table(folder):
    found = asked(folder, """
        answers.rows = [...document.querySelectorAll("#longest tbody tr")].map((row) =>
            [row.className, ...[...row.cells].map((cell) => cell.textContent)]);""")
    assert [row[:5] for row in found["rows"]] == [
        ["critical", "b.o", "6.000 s", "0.000 s", "1"],
        ["", "a.o", "4.000 s", "0.000 s", "0"],
        ["critical", "prog", "2.000 s", "6.000 s", "0"],
        ["", "check", "1.000 s", "8.000 s", "1"],
    ], found
    assert found["rows"][0][5] == "status 0" and "3" in found["rows"][3][5], found


def a_search_counts_and_lets_the_others_fade(folder):
    found = asked(folder, f"""
        typed(".o"); answers.found = text_of("found"); look("seen", {json.dumps(PLACES)});
        typed("nothing of that name"); answers.none = text_of("found");
        typed(""); answers.all = text_of("found"); look("behind", {json.dumps(PLACES)});""")
    assert (found["found"], found["none"], found["all"]) == ("2 of 4", "0 of 4", ""), found
    seen = colours(found["seen"])
    assert seen[:2] == SEEN[:2] and seen[3] not in (CRITICAL, IDLE) and seen[5] not in (FAILED, IDLE), found
    assert colours(found["behind"]) == SEEN, found


def a_search_leads_to_a_bar(folder):
    found = asked(folder, """
        typed("check"); send("search", new KeyboardEvent("keydown", { key: "Enter" }));
        answers.tip = text_of("tip"); look("near", [[2, 0.5], [2, 0.7], [2, 0.95]]);
        send("whole", new Event("click")); look("whole", [[2, 0.7], [2, 0.85], [2, 0.95]]);""")
    assert found["tip"].startswith("check: 1.000 s, began at 8.000 s, worker 1, "), found
    # Twice its time is to be seen on each side of it, and the run ends before that: from 5 s to 10 s.
    assert colours(found["near"]) == [IDLE, FAILED, IDLE], found
    assert colours(found["whole"]) == [IDLE, FAILED, IDLE], found


def the_wheel_zooms_where_the_pointer_is(folder):
    found = asked(folder, """
        const box = canvas_of_page.getBoundingClientRect();
        const turn = (by) => canvas_of_page.dispatchEvent(
            new WheelEvent("wheel", { deltaY: by, clientX: box.left + width / 2, clientY: box.top + 30, cancelable: true }));
        turn(-1000); look("near", [[1, 0.02], [1, 0.5], [1, 0.79]]);
        turn(5000); look("far", %s);""" % json.dumps(PLACES))
    # From 3.9 s to 6.1 s: the end of a.o, then idle, and prog's begin only at the right edge.
    assert colours(found["near"]) == [RECIPE, IDLE, IDLE], found
    assert colours(found["far"]) == SEEN, found


def what_lies_under_the_pointer_is_told(folder):
    found = asked(folder, """
        const box = canvas_of_page.getBoundingClientRect();
        const tip = (lane, part) => {
            const at = { clientX: box.left + part * width, clientY: box.top + 22 + 24 * lane + 12 };
            canvas_of_page.dispatchEvent(new MouseEvent("mousemove", at));
            return text_of("tip");
        };
        answers.tips = [tip(2, 0.3), tip(1, 0.5), tip(0, 0.65), tip(2, 0.85)];""")
    assert found["tips"][0] == "b.o: 6.000 s, began at 0.000 s, worker 1, on the critical path", found
    assert found["tips"][1] == "worker 0 idle at 5.000 s", found
    assert found["tips"][2] == "commit of 4 records: 1.000 s, on the disk at 7.000 s", found
    assert found["tips"][3].startswith("check: 1.000 s, began at 8.000 s, worker 1, "), found


def the_trace_has_what_perfetto_reads(folder):
    trace = json.loads(written(folder, "trace.json", "--chrome"))
    events = trace["traceEvents"] if isinstance(trace, dict) else trace
    for event in events:
        assert isinstance(event["name"], str) and event["ph"] in ("X", "M"), event
        assert isinstance(event["pid"], int) and isinstance(event["tid"], int), event
        if event["ph"] == "X":
            assert event["ts"] >= 0 and event["dur"] >= 0, event
    bars = {event["name"]: (event["tid"], event["ts"], event["dur"]) for event in events if event["ph"] == "X"}
    # Times are in microseconds.
    assert bars["b.o"][1:] == (0, 6_000_000) and bars["prog"][1:] == (6_000_000, 2_000_000), bars
    assert bars["a.o"][0] == bars["prog"][0] != bars["b.o"][0], bars


PAGE = [bars_are_where_recipes_were_run, the_longest_recipes_stand_in_the_table, a_search_counts_and_lets_the_others_fade, a_search_leads_to_a_bar,
        the_wheel_zooms_where_the_pointer_is, what_lies_under_the_pointer_is_told]


def main():
    if BROWSER is None:
        print("no Chromium is here: the page isn't opened")
    failed = 0
    cases = [*(PAGE if BROWSER else []), the_trace_has_what_perfetto_reads]
    for case in cases:
        with tempfile.TemporaryDirectory() as folder:
            with open(f"{folder}/b.log", "w", encoding="utf-8") as file:
                file.writelines(f"{json.dumps(event)}\n" for event in LOG)
            try:
                case(folder)
            except (AssertionError, KeyError, OSError, ValueError, subprocess.SubprocessError):
                print(f"FAILED {case.__name__}\n{traceback.format_exc()}")
                failed += 1
    print(f"{len(cases) - failed} passed, {failed} failed")
    return int(failed > 0)


if __name__ == "__main__":
    sys.exit(main())
