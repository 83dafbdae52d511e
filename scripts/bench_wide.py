"""What reading costs in the wide profile: python3 scripts/bench_wide.py [DMK]

A makefile of 10 MB with 100,000 rules and 100,000 definitions, one of each sign in turn, is read by `dmk --posix -r -n`, and the same
text with `=` and `+=` alone by `dmk -n`; then one line of 10,000 that each include a file by a macro. Of five runs in turn the least
processor time of each is printed, in seconds, and the ratio of the first two.
"""
import os
import resource
import subprocess
import sys
import tempfile

LINES = 100000
SIGNS = ("=", "?=", "::=", ":=", ":::=", "+=")
PADDING = "x" * 50


def makefile(signs):
    lines = []
    for number in range(LINES):
        sign = signs[number % len(signs)]
        name = number - 1 if sign == "+=" else number
        text = PADDING
        if number % 5 == 0 and number > 7:
            text += " $(N%d)" % (number - 7)
        if sign not in ("=", "+=", "?="):
            text += " $(N%d)" % (7 * (number * 31 % 10))
        lines.append("N%d %s %s" % (name, sign, text))
        lines.append("t%d: t%d ; @echo $(N%d)" % (number, number + 1, number))
    lines.append("t%d:" % LINES)
    return "\n".join(lines) + "\n"


def seconds(command, folder):
    before = resource.getrusage(resource.RUSAGE_CHILDREN)
    subprocess.run(command, cwd=folder, stdout=subprocess.DEVNULL, check=True)
    after = resource.getrusage(resource.RUSAGE_CHILDREN)
    return after.ru_utime - before.ru_utime + after.ru_stime - before.ru_stime


def main():
    dmk = os.path.abspath(sys.argv[1] if len(sys.argv) > 1 else "bin/dmk")
    with tempfile.TemporaryDirectory() as folder:
        texts = {"plain.mk": makefile(("=", "=", "=", "=", "=", "+=")), "wide.mk": makefile(SIGNS)}
        includes = ["F = f"]
        for number in range(10000):
            texts["f%d.mk" % number] = "V%d ::= $(F)%d\n" % (number, number)
            includes.append("include $(F)%d.mk" % number)
        texts["includes.mk"] = "\n".join(includes) + "\nall:\n"
        for name, text in texts.items():
            with open(os.path.join(folder, name), "w") as file:
                file.write(text)
        goal = "t%d" % LINES
        commands = {
            "definitions, strict": [dmk, "-n", "-f", "plain.mk", goal],
            "definitions, wide": [dmk, "--posix", "-r", "-n", "-f", "wide.mk", goal],
            "10,000 includes, wide": [dmk, "--posix", "-r", "-n", "-f", "includes.mk"],
        }
        least = dict.fromkeys(commands, float("inf"))
        for _ in range(5):
            for title, command in commands.items():
                least[title] = min(least[title], seconds(command, folder))
    for title, time in least.items():
        print("%-24s %.2f" % (title, time))
    print("%-24s %.2f" % ("wide to strict", least["definitions, wide"] / least["definitions, strict"]))


if __name__ == "__main__":
    main()
