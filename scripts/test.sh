#!/bin/bash
# Every check, from nothing. The last line is 'N passed, M failed'; the status is 0 only where M is 0.
set -u -o pipefail
cd "$(dirname "$0")/.." || exit 2
passed=0 failed=0 said='' planted=''

# run_part COMMAND..: shows its output, and adds the counts of its last line. A part with no count is one failure. The line before
# the last one is left in `said`.
run_part() {
    local log good bad status=0
    log=$(mktemp) || exit 2
    "$@" 2>&1 | tee "$log" || status=$?
    read -r good bad <<<"$(tail -n 1 "$log" | sed -nE 's/^([0-9]+) passed, ([0-9]+) failed$/\1 \2/p')"
    said=$(tail -n 2 "$log" | head -n 1)
    rm -f "$log"
    good=${good:-0} bad=${bad:-1}
    [ "$status" -eq 0 ] || [ "$bad" -gt 0 ] || bad=1
    passed=$((passed + good)) failed=$((failed + bad))
}

# A lane for each processor, as long as each has 5 GB, which no proof has needed. By its own, larger estimates `rt ci` lets the
# longest chain of crates wait for memory that is free.
lanes=$(awk -v most="$(nproc)" '/^MemAvailable:/ { n = int($2 / 5000000) } END { print n < 1 ? 1 : n < most ? n : most }' /proc/meminfo)

# What the parts cost, by crate: a table at the end.
cost=$(mktemp) || exit 2
python3 scripts/cost.py $$ scripts/budgets.txt >"$cost" &
sampler=$!

started=$SECONDS
run_part env RT_JOBS="${RT_JOBS:-$lanes}" rt ci
if [ "$failed" -eq 0 ]; then
    run_part python3 scripts/dead.py
    run_part python3 scripts/sizes.py
    run_part bash scripts/must_not_compile.sh
    run_part python3 scripts/planted.py --built --lanes "$lanes"
    planted=$said
    run_part bash scripts/cases.sh
    run_part python3 scripts/rows.py
    run_part bash scripts/store_rows.sh
    run_part bash scripts/board_rows.sh
    run_part bash scripts/word_rows.sh
    run_part python3 scripts/random_words.py
    run_part python3 scripts/random_expansions.py
    run_part python3 scripts/random_tables.py
    run_part python3 scripts/random_readings.py
    run_part python3 scripts/random_depfiles.py
    run_part python3 scripts/random_makefiles.py
    run_part python3 scripts/random_wide_makefiles.py
    run_part python3 scripts/random_old_files.py
    run_part python3 scripts/random_graphs.py crates/dmk/out/dmk
    run_part bash scripts/slot_runs.sh
    run_part bash scripts/two_runs.sh
    run_part python3 scripts/read_beside_runs.py
    run_part bash scripts/kill_runs.sh
    run_part env SECONDS_LEFT=8 python3 scripts/stop_runs.py 72
    run_part python3 scripts/recordings.py
    run_part python3 scripts/random_histories.py
    run_part python3 scripts/random_turns.py crates/dmk/out/dmk 1 4
    run_part python3 scripts/tools.py
    run_part python3 scripts/build_log.py
    run_part python3 scripts/timeline_page.py
    run_part python3 scripts/refused_growths.py
    run_part bash scripts/guarantees.sh
    run_part bash scripts/assumptions.sh
    run_part bash scripts/man.sh
    run_part python3 scripts/options.py
    run_part bash scripts/readme.sh
fi
kill "$sampler" 2>/dev/null
wait "$sampler"
cat "$cost"
rm -f "$cost"
[ -z "$planted" ] || echo "planted: $planted"
echo "wall time: $((SECONDS - started)) s"
echo "$passed passed, $failed failed"
[ "$failed" -eq 0 ]
