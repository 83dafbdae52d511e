#!/bin/bash
# Tries each crates/NAME/must-not-compile/*.edit on a copy of the repository's sources: the compiler has to refuse it
# with the error that its 'error:' line names. The last line is 'N passed, M failed'.
set -u -o pipefail
cd "$(dirname "$0")/.." || exit 2
passed=0 failed=0 edited=
work=$(mktemp -d) || exit 2
trap 'rm -rf "$work"' EXIT

# fresh CRATE..: puts the sources of these crates as they are into the copy.
fresh() {
    local crate
    for crate; do
        rm -rf "$work/crates/$crate"
        mkdir -p "$work/crates/$crate"
        tar -C "crates/$crate" --exclude=./out -cf - . | tar -C "$work/crates/$crate" -xf - || exit 2
    done
}

# built CRATE..: what was built of these crates, which no check of another writes to. It is large, so it is linked where it can be.
built() {
    local crate
    for crate; do
        [ -d "crates/$crate/out" ] || continue
        cp -al "crates/$crate/out" "$work/crates/$crate/out" 2>"$work/log" && continue
        rm -rf "$work/crates/$crate/out"
        cp -a "crates/$crate/out" "$work/crates/$crate/out" || exit 2
    done
}

all=$(cd crates && echo *)
for edit in crates/*/must-not-compile/*.edit; do
    [ -f "$edit" ] || continue
    crate=$(basename "$(dirname "$(dirname "$edit")")")
    wanted=$(sed -n 's/^error: //p' "$edit")
    if [ ! -d "$work/crates" ]; then
        cp crates.txt HANDLES "$work"
        fresh $all
        built $all
    fi
    # The crate that was edited before may be one that this one stands on.
    if [ -n "$edited" ]; then
        fresh "$edited"
        built "$edited"
    fi
    fresh "$crate"
    edited=$crate
    log=$work/log
    if ! python3 scripts/apply_edit.py "$edit" "$work/crates/$crate" >"$log" 2>&1; then
        echo "BAD EDIT $edit: $(cat "$log")"
        failed=$((failed + 1))
        continue
    fi
    if (cd "$work/crates/$crate" && rt check --only=) >"$log" 2>&1; then
        echo "COMPILES $edit"
        failed=$((failed + 1))
    elif [ -n "$wanted" ] && grep -qF "[$wanted]" "$log"; then
        echo "refused ($wanted): $edit"
        passed=$((passed + 1))
    else
        echo "REFUSED FOR ANOTHER CAUSE than $wanted: $edit"
        grep -m 5 -E 'error' "$log"
        failed=$((failed + 1))
    fi
done
if [ $((passed + failed)) -eq 0 ]; then
    echo "no edits were found"
    failed=1
fi
echo "$passed passed, $failed failed"
[ "$failed" -eq 0 ]
