# Runs the words on a terminal, presses Ctrl-C once their status line stands there and the recipes have begun, and prints what the
# terminal shows at the end, and how they ended. The session outlives them, as that of a shell does.
import os
import pty
import re
import signal
import subprocess
import sys
import time


def in_session(words):
    signal.signal(signal.SIGINT, signal.SIG_IGN)
    run = subprocess.Popen(words, stdin=subprocess.DEVNULL,
                           preexec_fn=lambda: signal.signal(signal.SIGINT, signal.default_int_handler) and None)
    status = run.wait()
    # Who draws or clears the line does so before.
    time.sleep(3)
    print("status %d" % status, flush=True)
    os._exit(0)


def recording(descriptor):
    seen = b""
    is_pressed = False
    while True:
        try:
            seen += os.read(descriptor, 65536)
        except OSError:
            return seen.decode()
        if not is_pressed and b"(2 run" in seen and os.path.exists("a") and os.path.exists("b"):
            is_pressed = True
            os.write(descriptor, b"\x03")


process, terminal = pty.fork()
if process == 0:
    in_session(sys.argv[1:])
rows, column = [""], 0
for part in re.findall(r"\r|\n|\x1b\[K|[^\r\n\x1b]+|\x1b", recording(terminal)):
    if part == "\r":
        column = 0
    elif part == "\n":
        rows.append("")
    elif part == "\x1b[K":
        rows[-1] = rows[-1][:column]
    else:
        rows[-1] = rows[-1][:column] + part + rows[-1][column + len(part):]
        column += len(part)
print("\n".join(rows).rstrip("\n"))
