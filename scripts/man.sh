#!/bin/bash
# The man pages, read by mandoc or, without it, by groff: no warning may come. Where neither is installed nothing is checked, and
# it says so. The last line is 'N passed, M failed'.
set -u -o pipefail
cd "$(dirname "$0")/.." || exit 2
passed=0 failed=0

# lint PAGE: the linter's warnings.
if command -v mandoc >/dev/null; then
    lint() { mandoc -T lint -W warning "$1" 2>&1; }
elif command -v groff >/dev/null; then
    lint() { groff -t -man -Tutf8 -ww -z "$1" 2>&1; }
else
    echo "neither mandoc nor groff is installed: man pages aren't checked"
    echo "0 passed, 0 failed"
    exit 0
fi

for page in man/*.[15]; do
    found=$(lint "$page")
    if [ -f "$page" ] && [ -z "$found" ]; then
        passed=$((passed + 1))
    else
        failed=$((failed + 1))
        echo "FAILED $page"
        printf '%s\n' "$found"
    fi
done
echo "$passed passed, $failed failed"
[ "$failed" -eq 0 ]
