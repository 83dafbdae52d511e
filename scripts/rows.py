"""Runs the built programs on the rows of files: python3 scripts/rows.py [FILE..]; without FILE all of cases/rows/.

A row is run in a fresh folder. Of the environment it gets PATH, with the built programs in front, LC_ALL=C and what its
`env` lines say, so nothing of a make that calls this. The language is told in row_files.py.
The last line is 'N passed, M failed'; the status is 1 where M isn't 0.
"""
import contextlib
import difflib
import glob
import multiprocessing
import os
import shutil
import signal
import subprocess
import sys
import tempfile

import row_files

ROOT = os.path.dirname(os.path.dirname(os.path.abspath(__file__)))
SECONDS = 20
LINES_SHOWN = 40


def environment():
    programs = sorted(glob.glob(os.path.join(ROOT, "crates", "*", "out")), reverse=True)
    path = os.pathsep.join(programs + [os.environ.get("PATH", "/usr/bin:/bin")])
    return {"PATH": path, "LC_ALL": "C"}


def answer_of(command, folder, variables):
    """Standard output, standard error and the status; a command that takes too long is ended, with all it started."""
    child = subprocess.Popen(["/bin/sh", "-c", os.fsencode(command)], cwd=folder, env=variables,
                             stdin=subprocess.DEVNULL, stdout=subprocess.PIPE, stderr=subprocess.PIPE,
                             start_new_session=True)
    try:
        out, err = child.communicate(timeout=SECONDS)
        status = child.returncode
    except subprocess.TimeoutExpired:
        os.killpg(child.pid, signal.SIGKILL)
        out, err = child.communicate()
        status = "ended after %d seconds" % SECONDS
    return *(text.replace(os.fsencode(folder), b"HERE") for text in (out, err)), status


def write_file(folder, name, text):
    path = os.path.join(folder, name)
    os.makedirs(os.path.dirname(path), exist_ok=True)
    with open(path, "wb") as file:
        file.write(text)


def set_time(folder, name, nanoseconds):
    if not os.path.exists(os.path.join(folder, name)):
        write_file(folder, name, b"")
    os.utime(os.path.join(folder, name), ns=(int(nanoseconds), int(nanoseconds)))


def new_fifo(folder, name, text):
    """A FIFO that holds the text, opened so that it keeps it, and so that a read of it waits for nobody."""
    path = os.path.join(folder, name)
    os.makedirs(os.path.dirname(path), exist_ok=True)
    os.mkfifo(path)
    file = os.open(path, os.O_RDWR | os.O_NONBLOCK)
    os.write(file, text)
    return file


def bytes_left(file):
    try:
        return os.read(file, 1 << 16)
    except BlockingIOError:
        return b""


def lines_of(text):
    """Lines that can be printed, each as Python spells its bytes; the last one says where it has no newline."""
    lines = [repr(line)[2:-1] for line in text.split(b"\n")]
    last = lines.pop()
    return lines + [last + " (without a newline)"] if last else lines


def difference(part, wanted, got):
    """The lines in which the two differ, as they would stand in a file of rows."""
    texts = [lines_of(text) for text in (wanted, got)]
    lines = list(difflib.unified_diff(*texts, "wanted " + part, "got " + part, n=2, lineterm=""))
    shown = lines[:LINES_SHOWN]
    if len(lines) > LINES_SHOWN:
        shown.append("(%d lines more)" % (len(lines) - LINES_SHOWN))
    return ["  " + line[:400] for line in shown]


def compared(wanted, answer):
    """What of an answer (output, error, status) isn't as wanted, as lines; none where all is."""
    lines = []
    for part, text, got in zip(("out", "err"), wanted, answer):
        if text != got:
            lines += difference(part, text, got)
    if wanted[2] != answer[2]:
        lines.append("  status %s was wanted, got %s" % (wanted[2], answer[2]))
    return lines


def different_bytes(name, wanted, got):
    """Why other bytes than the wanted ones lie in a FIFO, as lines; none where it is just they."""
    if sorted(wanted) == sorted(got):
        return []
    return ["  in %s %r was to be left, got %r" % (name, wanted, got)]


def run_steps(row, folder, opened):
    """Why the row fails, as lines; none where it passes. What has to be closed behind it is handed to `opened`."""
    variables, fifos = environment(), {}
    for directive, first, second in row.steps:
        if directive == "file":
            write_file(folder, first, second.bytes())
        elif directive == "state":
            write_file(folder, first, row_files.state_bytes(second.bytes()))
        elif directive == "hex":
            write_file(folder, first, second)
        elif directive == "time":
            set_time(folder, first, second)
        elif directive == "env":
            variables[first] = second
        elif directive == "fifo":
            fifos[first] = new_fifo(folder, first, second)
            opened.callback(os.close, fifos[first])
        elif directive == "left":
            lines = different_bytes(first, second, bytes_left(fifos[first]))
            if lines:
                return ["%s:%d: %s" % (row.file, row.line, row.name)] + lines
        else:
            lines = compared(first.wanted(), answer_of(first.command, folder, variables))
            if lines:
                return ["%s:%d: %s" % (row.file, first.line, row.name), "  $ " + first.command] + lines
    return []


def run_row(row):
    folder = tempfile.mkdtemp(prefix="row")
    try:
        with contextlib.ExitStack() as opened:
            return run_steps(row, folder, opened)
    except (row_files.Fault, OSError, ValueError) as fault:
        return ["%s:%d: %s" % (row.file, row.line, row.name), "  %s" % fault]
    finally:
        shutil.rmtree(folder, ignore_errors=True)


def place():
    """A folder for the rows' own, in memory where there is one."""
    for folder in ("/dev/shm", tempfile.gettempdir()):
        if os.access(folder, os.W_OK):
            return tempfile.mkdtemp(prefix="rows", dir=os.path.realpath(folder))
    raise SystemExit("no folder to write in")


def work_in(folder):
    """Has a process make its folders there."""
    tempfile.tempdir = folder


def read_files(names):
    rows, faults = [], []
    for name in names:
        try:
            reader = row_files.Reader(name).read()
            rows += reader.rows
            faults += ["%s:%d: %s" % (name, line, text) for line, text in reader.faults]
        except OSError as fault:
            faults.append("%s:1: %s" % (name, fault.strerror))
    if not names:
        faults.append("no files of rows were found")
    return rows, faults


def main():
    # Under nohup programs would ignore it, and rows send it.
    signal.signal(signal.SIGHUP, signal.SIG_DFL)
    named = sys.argv[1:] or sorted(glob.glob(os.path.join(ROOT, "cases", "rows", "*.rows")))
    rows, faults = read_files([os.path.relpath(name) for name in named])
    for fault in faults:
        print("FAILED " + fault)
    failed, folder = 0, place()
    try:
        with multiprocessing.Pool(os.cpu_count(), work_in, (folder,)) as pool:
            for lines in pool.imap(run_row, rows, chunksize=4):
                if lines:
                    failed += 1
                    print("FAILED " + "\n".join(lines))
    finally:
        shutil.rmtree(folder, ignore_errors=True)
    print("%d passed, %d failed" % (len(rows) - failed, failed + len(faults)))
    return 1 if failed or faults else 0


if __name__ == "__main__":
    sys.exit(main())
