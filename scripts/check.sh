#!/bin/bash
# check.sh [CRATE..]: proves the named crates, or all, lowest first, over the work that earlier checks kept. The command
# while editing; scripts/test.sh is the judge.
set -u
cd "$(dirname "$0")/.." || exit 2
[ $# -gt 0 ] || exec rt all check
for crate in "$@"; do
    (cd "crates/$crate" && rt check) || exit 1
done
