#!/bin/bash
# Builds the project of this folder with dmk over three servers of distcc, with ccache in front, with hosts that go away, and with
# dmk killed, and compares what comes of it with what gcc makes alone. README.md has what it prints.
#
#   run.sh [PART..]    PART: hosts, cache, away, cut; all of these where none is named; or icecream, which wants root (icecream.sh)
#
# The program is $DMK, or bin/dmk, which scripts/build.sh is called to make where it isn't there (that is told on standard error). It
# works in a folder of its own in the system's temporary one. The last line is 'N passed, M failed'; with FARM_FIRST set it ends at
# the first step that fails. Status: 0 where M is 0; 77 where a program that it needs isn't there, so that nothing was tried; else 1.
set -u
[ -z "${DMK:-}" ] || DMK=$(realpath -m -- "$DMK")
[ -z "${DMK_STATE:-}" ] || DMK_STATE=$(realpath -m -- "$DMK_STATE")
cd "$(dirname "$0")" || exit 1
here=$PWD root=$(cd ../.. && pwd)
icecream=
[ $# -gt 0 ] && parts=("$@") || parts=(hosts cache away cut)
for part in "${parts[@]}"; do
    case $part in
    hosts | cache | away | cut) ;;
    icecream) icecream="iceccd icecc-scheduler unshare ip" ;;
    *) echo "run.sh: no part $part" && exit 1 ;;
    esac
done
missing=
for program in distcc distccd ccache gcc python3 setsid $icecream; do
    PATH=$PATH:/usr/sbin:/sbin command -v "$program" >/dev/null || missing="$missing $program"
done
[ -z "$missing" ] || { echo "run.sh: not there:$missing (Debian: apt-get install distcc ccache gcc python3 util-linux${icecream:+ icecc iproute2})"; exit 77; }
if [ -z "${DMK:-}" ] && ! [ -x "$root/bin/dmk" ]; then
    command -v rt >/dev/null || { echo "run.sh: no $root/bin/dmk, and no rt to make it with; DMK=PATH names another one"; exit 77; }
    echo "run.sh: no $root/bin/dmk, so scripts/build.sh makes it first" >&2
    bash "$root/scripts/build.sh" >&2 || exit 1
fi
dmk=${DMK:-$root/bin/dmk}
lister=${DMK_STATE:-$(dirname "$dmk")/dmk_state}
[ -x "$dmk" ] && [ -x "$lister" ] || { echo "run.sh: no $dmk, or no $lister; DMK=PATH and DMK_STATE=PATH name them"; exit 77; }
if [ -n "$icecream" ] && [ -z "${FARM_NETWORK:-}" ]; then
    [ "$(id -u)" = 0 ] || { echo "run.sh: the part icecream wants root"; exit 77; }
    FARM_NETWORK=own exec unshare --net --mount bash run.sh "$@"
fi
work=$(mktemp -d) || exit 1
chmod 755 "$work"
. "$here/hosts.sh"
ice_end() { :; }
[ -z "$icecream" ] || { . "$here/icecream.sh" && ice_network || exit 1; }
trap 'end_hosts; ice_end; rm -rf "$work"' EXIT
trap 'exit 1' INT TERM HUP
unset MAKEFLAGS MAKELEVEL MFLAGS KEEP_STATE SUNPRO_DEPENDENCIES DMK_HOLDS ENGINE
export CCACHE_DIR=$work/cache CCACHE_PREFIX=distcc
unset DISTCC_FALLBACK CCACHE_DISABLE
# What stands behind each step: 240 modules and main.c are compiled, one header is made, one program is linked.
all=243 compiled=241
distcc=${FARM_DISTCC:-distcc} ccache=${FARM_CCACHE:-ccache}
passed=0 failed=0 scales="1 2"

# told TITLE WHY TEXT: one line for a step, and its count.
told() {
    if [ -z "$2" ]; then
        passed=$((passed + 1))
        printf '%-52s %s\n' "$1" "$3"
    else
        failed=$((failed + 1))
        printf 'FAILED %s:%s; %s\n' "$1" "$2" "$3"
        tail -n 5 "$work/errors"
        [ -z "${FARM_FIRST:-}" ] || exit 1
    fi
}

objects() { find out -name '*.o' | wc -l; }

# when_objects N COMMAND..: once so many objects are there, and before half of them are, as long as dmk goes on.
when_objects() {
    local number=$1 there=0
    shift
    while there=$(objects) && [ "$there" -lt "$number" ]; do
        kill -0 "$run" 2>/dev/null || break
        sleep 0.02
    done
    [ "$there" -lt 200 ] || why="$why too-late"
    "$@"
}

# build TITLE RECIPES COMPILED [WORDS..]: dmk runs so many recipes, so many compilations come to their end at the hosts ('-' is any
# number), the program prints what it should, objects that are said to be as gcc's are (ALIKE=yes), and there is nothing left to do.
build() {
    local title=$1 recipes=$2 wanted=$3 why='' before made got
    shift 3
    before=$(compiled_by_hosts)
    "$dmk" -j32 "$@" >"$work/lines" 2>"$work/errors" &
    run=$!
    ${MEANWHILE:-:}
    wait "$run" || why="$why status"
    made=$(wc -l <"$work/lines")
    # A host tells of a compilation once its answer is sent.
    for _ in $(seq 100); do
        got=$(($(compiled_by_hosts) - before))
        [ "$wanted" != - ] && [ "$got" -lt "$wanted" ] || break
        sleep 0.1
    done
    [ "$recipes" = - ] || [ "$made" -eq "$recipes" ] || why="$why recipes"
    [ "$wanted" = - ] || [ "$got" -eq "$wanted" ] || why="$why hosts"
    [ "$(out/farm)" = "$(python3 project.py wanted $scales)" ] || why="$why output"
    [ -z "${ALIKE:-}" ] || alike || why="$why objects"
    env -u ENGINE "$dmk" -q "$@" 2>>"$work/errors" || why="$why left-over"
    [ "$recipes" = - ] && made=
    [ "$wanted" = - ] && got=
    told "$title" "$why" "${made:+$made recipes}${got:+, $got compiled by the hosts}"
}

# alike: each object is, byte for byte, what gcc alone makes of the same sources.
alike() {
    local object
    for object in out/*.o out/*/*.o; do
        cmp -s "$object" "$work/plain/$object" || return
    done
}

nothing_built() { rm -f .make.state* out/farm out/*.o out/*/*.o include/version.h; }

# plain_build: the same sources in a folder of their own, each compiled by gcc with no make and no farm.
plain_build() {
    cd "$work/plain" || return
    sed 's/.*/#define VERSION "&"/' version.txt >include/version.h
    printf '%s\n' lib/*.c app/*.c main.c | xargs -P "$(nproc)" -n 10 sh -c 'for source; do
        case $source in lib/*) flags="-O2 -DSCALE=1" ;; app/*) flags="-O2 -DSCALE=2" ;; *) flags= ;; esac
        gcc -Iinclude $flags -c -o "out/${source%.c}.o" "$source" || exit 255
    done' sh
}

part_hosts() {
    local host busy=0
    nothing_built
    all_hosts || exit 1
    export DISTCC_FALLBACK=0
    ENGINE=$distcc ALIKE=yes build "from nothing" $all $compiled
    for host in $hosts; do grep -q COMPILE_OK "$work/host$host"/log* && busy=$((busy + 1)); done
    told "hosts that compiled" "$([ "$busy" = 3 ] || echo ' some did not')" "$busy"
    told "modules whose report names the family's header" "$([ "$(reports)" = 240 ] || echo ' some do not')" "$(reports)"
    ENGINE=$distcc build "nothing to do" 0 0
    touch include/g05.h
    ENGINE=$distcc build "touched: the header of a group" 11 10
    python3 project.py set include/f3.h 1000
    ENGINE=$distcc build "changed: the header of a family" 41 40
    scales="1 5"
    ENGINE=$distcc build "changed: the flags of app" 81 80 "APPFLAGS=-O2 -DSCALE=5"
    echo 2 >version.txt
    ENGINE=$distcc build "changed: what a header is made of" 3 1 "APPFLAGS=-O2 -DSCALE=5"
    scales="1 2"
    echo 1 >version.txt
    python3 project.py set include/f3.h 4
    build "all that back, without hosts" 123 0
    unset DISTCC_FALLBACK
}

reports() { "$lister" | awk '/^done /{ target = $2 } $1 == "<" && $2 ~ /^include\/f.\.h$/ { print target }' | sort -u | wc -l; }

part_cache() {
    nothing_built
    all_hosts || exit 1
    export DISTCC_FALLBACK=0
    ENGINE=$ccache ALIKE=yes build "ccache: from nothing" $all $compiled
    "$lister" >"$work/cold"
    nothing_built
    ENGINE=$ccache ALIKE=yes build "ccache: from nothing, all in the cache" $all 0
    "$lister" >"$work/warm"
    told "ccache: reports as the preprocessor's" "$(cmp -s "$work/cold" "$work/warm" || echo ' they differ')" "$(reports)"
    touch include/g05.h
    ENGINE=$ccache build "ccache: touched: the header of a group" 11 0
    python3 project.py set include/f3.h 1000
    ENGINE=$ccache build "ccache: changed: the header of a family" 41 40
    python3 project.py set include/f3.h 4
    ENGINE=$ccache ALIKE=yes build "ccache: that back" 41 0
    scales="1 5"
    ENGINE=$ccache build "ccache: changed: the flags of app" 81 80 "APPFLAGS=-O2 -DSCALE=5"
    scales="1 2"
    unset DISTCC_FALLBACK
}

part_away() {
    nothing_built
    all_hosts || exit 1
    ENGINE=$distcc ALIKE=yes MEANWHILE="when_objects 60 signal_host 2 KILL" build "a host is killed in the midst" $all -
    nothing_built
    all_hosts || exit 1
    # A host that is there and says nothing: distcc waits 300 seconds for it, unless told otherwise.
    export DISTCC_IO_TIMEOUT=3
    ENGINE=$distcc ALIKE=yes MEANWHILE="when_objects 60 signal_host 3 STOP" build "a host is stopped in the midst" $all -
    signal_host 3 KILL
    unset DISTCC_IO_TIMEOUT
    end_hosts
    rm -rf "$DISTCC_DIR"/*
    touch include/f3.h
    ENGINE=$distcc ALIKE=yes build "no host is there" 41 0
}

# stop_dmk SIGNAL WHOM: dmk alone, whose recipes go on, or all of its group.
stop_dmk() {
    case $2 in
    alone) kill "-$1" "$run" ;;
    all) kill "-$1" -- "-$run" ;;
    esac
}

# stopped SIGNAL WHOM: a run that is ended so in the midst, and one behind it, started at once.
stopped() {
    local why=''
    nothing_built
    all_hosts || exit 1
    # What a script starts in the background ignores SIGINT, unless told otherwise.
    ENGINE=$distcc setsid env --default-signal=INT "$dmk" -j32 >/dev/null 2>"$work/errors" &
    run=$!
    when_objects 60 stop_dmk "$1" "$2"
    wait "$run" 2>/dev/null
    [ -z "$why" ] || told "dmk is stopped by SIG$1" "$why" ""
    ENGINE=$distcc ALIKE=yes build "a run behind one that SIG$1 ended, $2" - -
}

part_cut() {
    stopped KILL alone
    stopped KILL all
    stopped INT alone
}

mkdir "$work/distcc"
python3 "$here/project.py" write "$work/plain" || exit 1
cp -r "$work/plain" "$work/tree"
cp project.py "$work/tree/"
(plain_build) || exit 1
cd "$work/tree" || exit 1
for part in "${parts[@]}"; do "part_$part"; done
echo "$passed passed, $failed failed"
[ "$failed" -eq 0 ]
