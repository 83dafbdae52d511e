#!/bin/bash
# By hand: that the example's output is that of its README.md, and that builds which go wrong fail it. The program is $DMK, or bin/dmk.
# The last line is 'N passed, M failed'; status 77 where a program that it needs isn't there.
set -u
cd "$(dirname "$0")" || exit 1
[ -n "${DMK:-}" ] || [ -x ../../bin/dmk ] || { echo "check.sh: no program: DMK=PATH, or scripts/build.sh"; exit 1; }
passed=0 failed=0
work=$(mktemp -d) || exit 1
trap 'rm -rf "$work"' EXIT

count() {
    if [ "$2" = yes ]; then
        passed=$((passed + 1))
        echo "$1"
    else
        failed=$((failed + 1))
        echo "FAILED $1"
        tail -n 20 "$work/out"
    fi
}

# engine NAME: a program that stands for distcc or ccache, with the text of standard input.
engine() {
    { echo '#!/bin/bash'; cat; } >"$work/$1"
    chmod 755 "$work/$1"
}

# has_to_fail TITLE PATTERN WORDS..: run.sh, with these words, fails, and first at a step that the pattern finds.
has_to_fail() {
    local title=$1 pattern=$2 ok=no
    shift 2
    env FARM_FIRST=yes "$@" >"$work/out" 2>&1
    [ $? -eq 1 ] && grep -q "^FAILED $pattern" "$work/out" && ok=yes
    count "$title" $ok
}

bash run.sh >"$work/out" 2>&1
status=$?
[ "$status" -ne 77 ] || { cat "$work/out"; exit 77; }
sed -n '/^    \$ bash examples\/farm\/run.sh$/,/^$/p' README.md | sed -e 1d -e '/^$/d' -e 's/^    //' >"$work/readme"
cmp -s "$work/readme" "$work/out" && [ "$status" -eq 0 ] && ok=yes || ok=no
diff "$work/readme" "$work/out"
count "the output is that of README.md" $ok

# The compiler's report is emptied: no header is a prerequisite any more.
engine forgets <<'END'
distcc "$@" || exit
while [ $# -gt 0 ]; do [ "$1" != -MF ] || : >"$2"; shift; done
END
has_to_fail "reports that are lost" "modules whose report names the family's header" "FARM_DISTCC=$work/forgets" bash run.sh hosts

# Where a host goes away, half an object is left, and the status is 0.
engine leaves_half <<'END'
DISTCC_FALLBACK=0 distcc "$@" && exit
while [ $# -gt 0 ]; do [ "$1" != -o ] || printf half >"$2"; shift; done
END
has_to_fail "objects that are half made" "[a-z ]*: .*objects" "FARM_DISTCC=$work/leaves_half" bash run.sh away

# ccache sees the variable by which gcc is asked for a report, and compiles nothing.
engine sees_the_variable <<'END'
SUNPRO_DEPENDENCIES="report target" exec ccache "$@"
END
has_to_fail "a cache that compiles nothing" "ccache: from nothing" "FARM_CCACHE=$work/sees_the_variable" bash run.sh cache

# A cache that restores objects and no reports.
engine restores_no_report <<'END'
words=()
while [ $# -gt 0 ]; do
    case $1 in -MD) ;; -MF | -MT) shift ;; *) words+=("$1") ;; esac
    shift
done
exec ccache "${words[@]}"
END
has_to_fail "a cache that restores no report" "ccache: touched: the header of a group" "FARM_CCACHE=$work/restores_no_report" bash run.sh cache

echo "$passed passed, $failed failed"
[ "$failed" -eq 0 ]
