#!/usr/bin/env python3
"""Builds with many kinds of tools whose recipes read files that no makefile names: tools.py [KIND..].

Of each kind that is installed here: a target is built, once more nothing is made, the hidden file is changed, the target is made
anew, and once more nothing is. So with share/dmk/dmk-trace in both profiles, and where the tool writes a depfile, with
share/dmk/dmk-deps, and with `.DEPFILE` alone. dmk is the built one. A kind whose tool isn't here has a line that says so; the last
line is 'N passed, M failed'.
"""
import dataclasses
import os
import shutil
import subprocess
import sys
import tempfile
import time

HERE = os.path.dirname(os.path.dirname(os.path.abspath(__file__)))
PROGRAM = f"{HERE}/crates/dmk/out/dmk"
C = {"a.c": '#include "hidden.h"\nint main(void){return V;}\n', "hidden.h": "#define V 0\n"}
C_AFTER = "#define V 1\n"


@dataclasses.dataclass
class Kind:
    """A tool, the files, the target, its recipe with {depfile} where the options for one come, and the file that changes."""

    name: str
    tool: str
    files: dict
    target: str
    source: str
    recipe: str
    hidden: str
    after: str
    depfile: str = ""
    option: str = ""


KINDS = [
    Kind("gcc", "gcc", C, "a.o", "a.c", "gcc {dep} -c a.c -o a.o", "hidden.h", C_AFTER, "a.d", "-MMD"),
    Kind("g++", "g++", {"a.cc": C["a.c"], "hidden.h": C["hidden.h"]}, "a.o", "a.cc", "g++ {dep} -c a.cc -o a.o", "hidden.h", C_AFTER, "a.d", "-MMD"),
    Kind("clang", "clang", C, "a.o", "a.c", "clang {dep} -c a.c -o a.o", "hidden.h", C_AFTER, "a.d", "-MMD -MP"),
    Kind("tcc", "tcc", C, "a.o", "a.c", "tcc {dep} -c a.c -o a.o", "hidden.h", C_AFTER, "a.d", "-MD"),
    Kind("gcc behind ccache", "ccache", C, "a.o", "a.c", "ccache gcc {dep} -c a.c -o a.o", "hidden.h", C_AFTER, "a.d", "-MMD"),
    Kind("gcc in another folder", "gcc", {f"sub/{name}": text for name, text in C.items()}, "sub/a.o", "sub/a.c", "cd sub && {tracer}gcc -c a.c -o a.o",
         "sub/hidden.h", C_AFTER),
    Kind("gfortran", "gfortran", {"a.f90": 'program a\ninclude "hidden.inc"\nprint *, v\nend\n', "hidden.inc": "integer, parameter :: v = 1\n"},
         "a.o", "a.f90", "gfortran -c a.f90 -o a.o", "hidden.inc", "integer, parameter :: v = 2\n"),
    Kind("gfortran with a preprocessor", "gfortran", {"a.F90": '#include "hidden.h"\nprogram a\nprint *, V\nend\n', "hidden.h": "#define V 1\n"},
         "a.o", "a.F90", "gfortran -cpp {dep} -c a.F90 -o a.o", "hidden.h", "#define V 2\n", "a.d", "-MMD"),
    Kind("rustc", "rustc", {"a.rs": "mod hidden;\nfn main() { println!(\"{}\", hidden::V); }\n", "hidden.rs": "pub const V: u8 = 1;\n"},
         "a", "a.rs", "rustc {dep} -o a a.rs", "hidden.rs", "pub const V: u8 = 2;\n", "a.d", "--emit=link,dep-info=a.d"),
    Kind("javac", "javac", {"A.java": "class A { int v = Hidden.V; }\n", "Hidden.java": "class Hidden { static final int V = 1; }\n"},
         "out/A.class", "A.java", "mkdir -p out; {tracer}javac -d out A.java", "Hidden.java", "class Hidden { static final int V = 2; }\n"),
    Kind("go", "go", {"go.mod": "module a\n", "a.go": "package main\nfunc main() { println(v) }\n", "hidden.go": "package main\nconst v = 1\n"},
         "a", "a.go", "go build -o a .", "hidden.go", "package main\nconst v = 2\n"),
    Kind("protoc", "protoc", {"a.proto": 'syntax = "proto3";\nimport "hidden.proto";\nmessage A { H h = 1; }\n',
                              "hidden.proto": 'syntax = "proto3";\nmessage H { int32 v = 1; }\n'},
         "a.pb.cc", "a.proto", "protoc {dep} --cpp_out=. a.proto", "hidden.proto", 'syntax = "proto3";\nmessage H { int64 v = 1; }\n', "a.pb.d",
         "--dependency_out=a.pb.d"),
    Kind("nasm", "nasm", {"a.asm": '%include "hidden.inc"\ndb V\n', "hidden.inc": "%define V 1\n"}, "a.bin", "a.asm",
         "nasm {dep} -o a.bin a.asm", "hidden.inc", "%define V 2\n", "a.d", "-MD a.d"),
    Kind("as", "as", {"a.s": '.include "hidden.inc"\n', "hidden.inc": ".byte 1\n"}, "a.o", "a.s", "as {dep} -o a.o a.s", "hidden.inc", ".byte 2\n", "a.d",
         "--MD a.d"),
    Kind("a script of Python", "python3", {"a.py": "print(open('hidden.txt').read())\n", "hidden.txt": "1\n"}, "a.txt", "a.py",
         "python3 a.py > a.txt", "hidden.txt", "2\n"),
    Kind("cython", "cython", {"a.pyx": 'include "hidden.pxi"\n', "hidden.pxi": "v = 1\n"}, "a.c", "a.pyx", "cython a.pyx", "hidden.pxi", "v = 2\n"),
    Kind("ld", "ld", {}, "a", "a.o", "ld {dep} -r -o a a.o -L. -lhidden", "libhidden.a", "", "a.d", "--dependency-file=a.d"),
    Kind("a shell that renames", "sh", {"a.in": "x\n", "hidden.txt": "1\n"}, "a.txt", "a.in", "sh -c 'cat a.in hidden.txt > a.tmp; mv a.tmp a.txt'",
         "hidden.txt", "2\n"),
    Kind("a program that was built", "sh", {"gen": "#!/bin/sh\necho 1\n", "a.in": ""}, "a.txt", "a.in", "sh -c './gen > a.txt'", "gen",
         "#!/bin/sh\necho 2\n"),
]


def ways_of(kind):
    """Each way in which dmk may learn of the hidden file: its name, the recipe, lines for the makefile, options."""
    tracer = f"{HERE}/share/dmk/dmk-trace "
    if kind.hidden.startswith("sub/"):
        tracer = f"DMK_TRACE_ROOTS=.. {tracer}"
    if "{tracer}" in kind.recipe:
        recipe = kind.recipe.replace("{tracer}", tracer)
    else:
        recipe = tracer + kind.recipe
    # In the strict profile a report has no name behind `cd`.
    if not kind.hidden.startswith("sub/"):
        yield "traced, strict", recipe.replace("{dep} ", ""), "", []
    yield "traced", recipe.replace("{dep} ", ""), "", ["--posix"]
    if kind.depfile:
        told = kind.recipe.replace("{dep}", kind.option)
        yield "its depfile, strict", f"{HERE}/share/dmk/dmk-deps {kind.depfile} {told}", "", []
        yield "its depfile", told, f".DEPFILE: {kind.depfile}\n", ["--posix"]


def put(folder, files):
    for name, text in files.items():
        path = os.path.join(folder, name)
        os.makedirs(os.path.dirname(path), exist_ok=True)
        with open(path, "w", encoding="utf-8") as file:
            file.write(text)
        if text.startswith("#!"):
            os.chmod(path, 0o755)


def archive(folder, value):
    """What `ld` is given: an object of its own, and an archive of another one, which holds this value."""
    texts = {"hidden.o": f"void v(void){{}} int w = {value};"}
    if value == 1:
        texts["a.o"] = "void v(void); void a(void){v();}"
    for name, text in texts.items():
        subprocess.run(["gcc", "-c", "-x", "c", "-", "-o", f"{folder}/{name}"], input=text.encode(), check=True)
    subprocess.run(["ar", "rcs", f"{folder}/libhidden.a", f"{folder}/hidden.o"], check=True)


def wrong_in(folder, kind, recipe, lines, options):
    """What went wrong, if anything."""
    put(folder, kind.files)
    if kind.tool == "ld":
        archive(folder, 1)
    with open(f"{folder}/makefile", "w", encoding="utf-8") as makefile:
        makefile.write(f".KEEP_STATE:\n{lines}{kind.target}: {kind.source}\n\t{recipe}\n")
    environment = {name: value for name, value in os.environ.items() if not name.startswith(("MAKE", "DMK_", "KEEP_STATE", "SUNPRO"))}

    def dmk(*words):
        time.sleep(0.05)
        return subprocess.run([PROGRAM, *options, *words], cwd=folder, env=environment, capture_output=True, text=True, timeout=120)

    def changed():
        if kind.tool == "ld":
            archive(folder, 2)
        else:
            put(folder, {kind.hidden: kind.after})

    for what, words, wanted in [("it isn't built", [], 0), ("it is made twice", ["-q"], 0), ("", [], None), ("a change isn't seen", ["-q"], 1),
                                ("it isn't built again", [], 0), ("it is made once more", ["-q"], 0)]:
        if wanted is None:
            time.sleep(0.05)
            changed()
            continue
        run = dmk(*words)
        if run.returncode != wanted:
            return f"{what}: {run.stdout}{run.stderr}{dmk('-q', '-d').stdout}"
    return None


def main():
    passed = failed = 0
    for kind in KINDS:
        if sys.argv[1:] and kind.name not in sys.argv[1:]:
            continue
        if not shutil.which(kind.tool) or not shutil.which("strace"):
            print(f"{kind.name}: not installed here")
            continue
        for way, recipe, lines, options in ways_of(kind):
            with tempfile.TemporaryDirectory() as folder:
                wrong = wrong_in(folder, kind, recipe, lines, options)
            passed += wrong is None
            failed += wrong is not None
            if wrong is not None:
                print(f"{kind.name}, {way}: {wrong}")
    print(f"{passed} passed, {failed} failed")
    return failed > 0


sys.exit(main())
