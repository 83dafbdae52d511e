#!/bin/bash
# Proves the programs and the crates below them side by side, longest chain first, and builds the programs into bin/. Then it
# lists the example's state with the new dmk_state, asks the new dmk what a build of the example would run, and builds it: from
# nothing, again, and after a header was touched. RT_JOBS says how many crates are proved at once. Text of which bin/ has the
# programs isn't proved again.
set -eu -o pipefail
cd "$(dirname "$0")/.."
command -v rt >/dev/null || { echo "build.sh: there is no rt here: the toolchain builds the programs" >&2; exit 1; }
mkdir -p bin
programs=(dmk_state dmk_tool dmk)
mapfile -t crates < <(python3 scripts/build_progress.py --crates "${programs[@]}")
# A lane for each processor, as long as each has 5 GB: scripts/test.sh says why.
lanes=${RT_JOBS:-$(awk -v most="$(nproc)" '
    /^MemAvailable:/ { n = int($2 / 5000000) } END { print n < 1 ? 1 : n < most ? n : most }' /proc/meminfo)}

# `rt ci` proves a repository, and keeps what it has proved for later runs on this machine. It is given one of these crates alone,
# without the edits of theirs that are there to be refused: those belong to the test. (Behind `rt ci NAME` no program is left.)
room=$(mktemp -d "${TMPDIR:-/tmp}/dmk-build-XXXXXX")
trap 'rm -rf "$room"' EXIT
mkdir -p "$room/.git" "$room/crates"
cp HANDLES "$room/"
for crate in "${crates[@]}"; do
    grep -E "^$crate( [^:]*)?:" crates.txt >>"$room/crates.txt"
    mkdir "$room/crates/$crate"
    find "crates/$crate" -mindepth 1 -maxdepth 1 ! -name out ! -name must-fail ! -name planted ! -name must-not-compile \
        -exec cp -r -t "$room/crates/$crate" {} +
done

# What bin/ was built of, and what it has: sums of the toolchain's name and the text, and of each program.
text=$({ rt version && cd "$room" && find . -type f -print0 | LC_ALL=C sort -z | xargs -0 sha256sum; } | sha256sum)
sums() {
    echo "$text"
    sha256sum "${programs[@]/#/bin/}" 2>/dev/null
}
if [ "$(cat bin/built.sums 2>/dev/null)" = "$(sums)" ]; then
    echo "bin/ has the programs of this text"
else
    rm -f bin/built.sums
    echo "proving ${programs[*]} and the crates below them, $lanes at once (the log: bin/build.log)"
    (cd "$room" && RT_JOBS=$lanes rt ci) 2>&1 | tee bin/build.log | python3 scripts/build_progress.py "$lanes" "${programs[@]}" ||
        { tail -n 40 bin/build.log; exit 1; }
    for program in "${programs[@]}"; do
        install "$room/crates/$program/out/$program" bin/
    done
    sums >bin/built.sums
    rm -f bin/build.log
fi

echo "\$ bin/dmk_state examples/hello/.make.state"
bin/dmk_state examples/hello/.make.state

# A copy, in which all files have one time, as after a build that was cut off while hello was linked.
rm -rf bin/hello
cp -r examples/hello bin/hello
cd bin/hello
touch main.o parse.o hello
touch -d '2000-01-01 00:00:00' ./*
echo "\$ cd bin/hello"
echo "\$ ../dmk -n"
../dmk -n

rm -f .make.state .make.state.2 main.o parse.o hello
run() {
    echo "\$ $*"
    "$@"
}
run ../dmk
run ./hello 2 3
run ../dmk
sleep 0.1
run touch parse.h
run ../dmk
run sed -i s/-O2/-O1/ makefile
run ../dmk -n -d
