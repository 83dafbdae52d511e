#!/bin/bash
# bench_dmk.sh [FOLDER [KIND TARGETS]]: times bin/dmk (scripts/build.sh makes it) on trees that are up to date, beside GNU make
# and, where it is installed, ninja, in turns: milliseconds of processor time, the least of $ROUNDS (5), and the most memory that was in
# use. The trees stand in a folder of their own in FOLDER (the system's temporary one); KIND (flat, layers, hidden, chain) and
# TARGETS name one of them, which dmk reads in the wide profile (--posix) where it has 100,000 targets or more. The program is
# $DMK, or bin/dmk. Nothing is tested.
set -eu
folder=$(cd "${1:-${TMPDIR:-/tmp}}" && pwd)
cd "$(dirname "$0")/.."
dmk=$(realpath "${DMK:-bin/dmk}")
scripts=$PWD/scripts
work=$(mktemp -d -p "$folder")
trap 'rm -rf "$work"' EXIT

# rounds COMMANDS..: each a line of words. In each round each is run once, so that what else the machine does falls on all of them.
# They are started without a copy of this program, whose pages would count as their time. The most memory is that of one run more
# under GNU time, where it is installed.
rounds() {
    python3 -c 'import os, shutil, subprocess, sys
words = [line.split() for line in sys.argv[2:]]
least, most, status = [None] * len(words), ["memory not measured"] * len(words), [0] * len(words)
nowhere = [(os.POSIX_SPAWN_OPEN, 1, "/dev/null", os.O_WRONLY, 0), (os.POSIX_SPAWN_DUP2, 1, 2)]
for number, command in enumerate(words):
    if shutil.which("time"):
        told = subprocess.run(["time", "-q", "-f", "%M", *command], stdout=subprocess.DEVNULL, stderr=subprocess.PIPE)
        most[number] = f"{int(told.stderr.split()[-1]) / 1024:.1f} MB"
for _ in range(int(sys.argv[1])):
    for number, command in enumerate(words):
        process = os.posix_spawnp(command[0], command, os.environ, file_actions=nowhere)
        _, ended, used = os.wait4(process, 0)
        took = used.ru_utime + used.ru_stime
        least[number] = took if least[number] is None else min(least[number], took)
        status[number] = os.waitstatus_to_exitcode(ended)
for number, command in enumerate(words):
    name = " ".join([os.path.basename(command[0]), *command[1:]])
    print(f"  {name:<14} {1000 * least[number]:.1f} ms, {most[number]} (status {status[number]})")' "${ROUNDS:-5}" "$@"
}

measure() {
    local kind=$1 targets=$2 tree=$work/tree wide=
    [ "$targets" -lt 100000 ] || wide=" --posix"
    rm -rf "$tree"
    python3 "$scripts/dmk_tree.py" "$kind" "$targets" "$tree"
    cd "$tree"
    echo "$kind, $targets targets, state of $(stat -c %s .make.state) bytes, load $(cut -d' ' -f1 /proc/loadavg)"
    set -- "$dmk$wide -q" "make -rR -q" "$dmk$wide -n" "make -rR -n" "$dmk$wide" "make -rR"
    ! command -v ninja >/dev/null || set -- "$@" "ninja -n" "ninja"
    rounds "$@"
    cd "$scripts/.."
}

if [ $# -gt 1 ]; then
    measure "$2" "$3"
    exit
fi
for targets in 1000 10000 49000; do
    for kind in flat layers hidden; do
        measure "$kind" "$targets"
    done
done
measure chain 99997
