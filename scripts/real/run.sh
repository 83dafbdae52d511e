#!/bin/bash
# Builds real projects by their own makefiles, with GNU make and with dmk, and compares what comes of it.
#
#   scripts/real/run.sh [PROJECT..]    PROJECT: a file of this folder, NAME.sh; all of these where none is named
#
# It is run by hand: the sources are those of Debian 12's packages, which apt-get fetches into a temporary folder (root isn't needed, the
# network is), and gcc, GNU make and cmake are used as they are installed. The program is $DMK, or bin/dmk. Both makes build in one folder,
# one behind the other, since some projects write its path into what they make. For each project:
#
#   same    dmk makes the products that GNU make makes, byte for byte
#   null    a second run makes none of them anew
#   header  behind a touched header those are made anew that include it, and what is made of them: what GNU make makes anew where the
#           project's makefile names its headers, and else those that the project's file here lists
#   flags   behind changed flags all objects are made anew
#
# The last line is 'N passed, M failed'; the status is 0 where M is 0, and 77 where something that is needed isn't there.
set -u
cd "$(dirname "$0")" || exit 1
here=$PWD
dmk=$(realpath -m -- "${DMK:-../../bin/dmk}")
for program in apt-get cmake gcc g++ make tar "$dmk"; do
    command -v "$program" >/dev/null || { echo "run.sh: not there: $program"; exit 77; }
done
[ $# -gt 0 ] && projects=("$@") || projects=(bzip2 lua tree cmark cjson)
work=$(mktemp -d) || exit 1
trap 'rm -rf "$work"' EXIT
trap 'exit 1' INT TERM HUP
unset MAKEFLAGS MAKELEVEL MFLAGS KEEP_STATE SUNPRO_DEPENDENCIES DMK_HOLDS DMK_PROFILE CFLAGS
# A makefile's $(MAKE) is `dmk`.
mkdir "$work/bin" && ln -s "$dmk" "$work/bin/dmk" && export PATH="$work/bin:$PATH"
passed=0 failed=0

# fetch PACKAGE: its upstream sources in $work/source
fetch() {
    mkdir -p "$work/lists/partial" "$work/source"
    echo "deb-src http://deb.debian.org/debian bookworm main" >"$work/sources.list"
    local options=(-qq -o "Dir::Etc::sourcelist=$work/sources.list" -o Dir::Etc::sourceparts=/dev/null
        -o "Dir::State::lists=$work/lists" -o "Dir::Cache=$work/cache" -o APT::Sandbox::User=)
    (cd "$work" && apt-get "${options[@]}" update && apt-get "${options[@]}" --download-only source "$1") || return
    tar xf "$work/$1"_*.orig.tar.* -C "$work/source" --strip-components=1
}

# fresh: the sources as they were, at the one place, and what the project does before it is made
fresh() {
    rm -rf "$work/tree"
    cp -r "$work/source" "$work/tree" && cd "$work/tree" && prepare >"$work/log" 2>&1 && cd "$folder"
}

by_make() { make -j4 $goals "$@" >"$work/log" 2>&1; }
by_dmk() { env ${state:+KEEP_STATE=1} dmk --posix -j4 $goals "$@" >"$work/log" 2>&1; }

# products: each object, library and program with its time and its sum
products() {
    find . -type f \( -name '*.o' -o -name '*.a' -o -name '*.so' -o -name '*.so.*' -o -perm -100 \) ! -name '*.sh' |
        LC_ALL=C sort | while read -r file; do echo "$file $(stat -c %y "$file") $(md5sum <"$file")"; done
}
names_and_sums() { awk '{ print $1, $5 }' "$1"; }
# made_anew BEFORE AFTER: the products that have another time
made_anew() { comm -13 "$1" "$2" | awk '{ print $1 }'; }

# told STEP WHAT: counts a step that held where the command before it did
told() {
    if [ "$1" -eq 0 ]; then
        passed=$((passed + 1))
        printf '%-8s %-8s %s\n' "$project" "$2" "$3"
    else
        failed=$((failed + 1))
        printf 'FAILED %s %s\n' "$project" "$2"
        tail -n 5 "$work/log"
    fi
}

# steps of GNU make: what it makes, and what it makes anew
made_by_make() {
    fresh && by_make || return
    products >"$work/make.1"
    touch "$header" && by_make || return
    products >"$work/make.2"
    made_anew "$work/make.1" "$work/make.2" >"$work/anew"
    [ -z "$listed" ] || printf './%s\n' $listed | LC_ALL=C sort >"$work/anew"
}

same() { fresh && by_dmk && products >"$work/dmk.1" && cmp -s <(names_and_sums "$work/make.1") <(names_and_sums "$work/dmk.1"); }
null() { by_dmk && products >"$work/dmk.2" && cmp -s "$work/dmk.1" "$work/dmk.2"; }
header_touched() {
    touch "$header" && by_dmk && products >"$work/dmk.3" && made_anew "$work/dmk.2" "$work/dmk.3" >"$work/log" &&
        [ -s "$work/log" ] && cmp -s "$work/anew" "$work/log"
}
flags_changed() {
    other_flags && by_dmk $flags && products >"$work/dmk.4" || return
    made_anew "$work/dmk.3" "$work/dmk.4" | grep '\.o$' >"$work/log"
    cmp -s <(awk '{ print $1 }' "$work/dmk.4" | grep '\.o$') "$work/log"
}

for project in "${projects[@]}"; do
    package= goals= header= listed= flags= state=yes folder=.
    prepare() { :; }
    other_flags() { :; }
    . "$here/$project.sh" || exit 1
    rm -rf "$work/source"
    fetch "$package" || { echo "run.sh: $package can't be fetched"; exit 77; }
    (made_by_make) || { echo "run.sh: GNU make fails:"; tail -n 5 "$work/log"; exit 1; }
    same
    told $? same "$(wc -l <"$work/dmk.1") products"
    null
    told $? null "nothing made anew"
    header_touched
    told $? header "$(wc -l <"$work/anew") made anew behind $(basename "$header")"
    if [ "$flags" = unseen ]; then
        printf '%-8s %-8s %s\n' "$project" flags "not tried: without state they aren't seen"
    else
        flags_changed
        told $? flags "$(wc -l <"$work/log") objects made anew"
    fi
done
echo "$passed passed, $failed failed"
[ "$failed" -eq 0 ]
