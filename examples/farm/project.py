#!/usr/bin/env python3
"""The project that the farm compiles: 240 modules and a main program, and headers on three levels.

  project.py write FOLDER           writes it; of $FARM_MODULES modules, where that is given
  project.py set HEADER VALUE       in its folder: gives a header another value
  project.py wanted SCALE SCALE     in its folder: what the program has to print, worked out from the headers' texts; the two
                                    numbers are those that lib and app are compiled with

Each module reads a header of its own and one of its group (ten modules), which reads that of the family (four groups). So a family's
header is read by 40 modules, none of which names it. What a module adds to the sum depends on all three and on its flags.
"""
import os
import pathlib
import re
import shutil
import sys

MODULES, GROUP, FAMILY = int(os.environ.get("FARM_MODULES", 240)), 10, 40
LIB = MODULES * 2 // 3

MODULE = """#include <stdio.h>
#include <stdlib.h>
#include <string.h>

#include "m{n:03d}.h"
#include "g{group:02d}.h"

static int compare(const void *left, const void *right)
{{
    return *(const int *)left - *(const int *)right;
}}

/* The least of 64 numbers, sorted, written and read back. */
static int least(int from)
{{
    char text[64][16];
    int numbers[64];
    for (int i = 0; i < 64; i++)
        numbers[i] = from + (i * 37 + {n}) % 64;
    qsort(numbers, 64, sizeof numbers[0], compare);
    for (int i = 0; i < 64; i++)
        snprintf(text[i], sizeof text[i], "%d", numbers[i]);
    return strlen(text[0]) > 0 ? atoi(text[0]) : 0;
}}

long m{n:03d}(void)
{{
    return (long)SCALE * least({weight} * (OWN + 3L * GROUP + 7L * FAMILY));
}}
"""


def folder_of(n):
    return "lib" if n < LIB else "app"


def header(name, value, before=""):
    return f"{before}#define {name} {value}\n"


def write(folder):
    place = pathlib.Path(folder)
    for name in ("lib", "app", "include", "out/lib", "out/app"):
        (place / name).mkdir(parents=True)
    numbers = range(MODULES)
    for n in numbers:
        (place / f"{folder_of(n)}/m{n:03d}.c").write_text(MODULE.format(n=n, group=n // GROUP, weight=n + 1))
        (place / f"include/m{n:03d}.h").write_text(header("OWN", n + 1))
    for group in range(-(-MODULES // GROUP)):
        family = group * GROUP // FAMILY
        (place / f"include/g{group:02d}.h").write_text(header("GROUP", group + 1, f'#include "f{family}.h"\n'))
    for family in range(-(-MODULES // FAMILY)):
        (place / f"include/f{family}.h").write_text(header("FAMILY", family + 1))
    (place / "include/modules.h").write_text("".join(f"long m{n:03d}(void);\n" for n in numbers))
    calls = "".join(f"    sum += m{n:03d}();\n" for n in numbers)
    (place / "main.c").write_text('#include <stdio.h>\n\n#include "modules.h"\n#include "version.h"\n\n'
                                  f'int main(void)\n{{\n    long sum = 0;\n{calls}'
                                  f'    printf("version %s, {MODULES} modules, sum %ld\\n", VERSION, sum);\n    return 0;\n}}\n')
    (place / "version.txt").write_text("1\n")
    objects = {name: " ".join(f"out/{name}/m{n:03d}.o" for n in numbers if folder_of(n) == name) for name in ("lib", "app")}
    (place / "modules.mk").write_text(f"LIB = {objects['lib']}\nAPP = {objects['app']}\n")
    shutil.copy(pathlib.Path(__file__).with_name("makefile"), place)


def value_of(path):
    return int(re.search(r"#define \w+ (\d+)", pathlib.Path(path).read_text())[1])


def set_value(path, value):
    text = pathlib.Path(path).read_text()
    pathlib.Path(path).write_text(re.sub(r"(#define \w+) \d+", rf"\1 {value}", text))


def wanted(scale):
    total = 0
    for n in range(MODULES):
        values = [value_of(f"include/{name}.h") for name in (f"m{n:03d}", f"g{n // GROUP:02d}", f"f{n // FAMILY}")]
        total += scale[folder_of(n)] * (n + 1) * (values[0] + 3 * values[1] + 7 * values[2])
    version = pathlib.Path("version.txt").read_text().strip()
    return f"version {version}, {MODULES} modules, sum {total}"


if __name__ == "__main__":
    if sys.argv[1] == "write":
        write(sys.argv[2])
    elif sys.argv[1] == "set":
        set_value(sys.argv[2], sys.argv[3])
    else:
        print(wanted({"lib": int(sys.argv[2]), "app": int(sys.argv[3])}))
