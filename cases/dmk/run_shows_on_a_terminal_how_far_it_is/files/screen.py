# What a terminal shows at the end of a recording, then the counts that it showed on the way, and how wide their lines were.
import re
import sys

recording = sys.stdin.buffer.read().decode()
rows, column = [""], 0
for part in re.findall(r"\r|\n|\x1b\[K|[^\r\n\x1b]+|\x1b", recording):
    if part == "\r":
        column = 0
    elif part == "\n":
        rows.append("")
    elif part == "\x1b[K":
        rows[-1] = rows[-1][:column]
    else:
        rows[-1] = rows[-1][:column] + part + rows[-1][column + len(part) :]
        column += len(part)
print("\n".join(rows).rstrip("\n"))
drawn = re.findall(r"\r(\[\d+/\d+\] [^\r\n\x1b]*)\x1b\[K", recording)
print("counts:", *dict.fromkeys(line.split()[0] for line in drawn))
print("widest:", max(map(len, drawn), default=0))
