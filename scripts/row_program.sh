# Sourced by the scripts that run a program of rows, which name the built one and the kind of its rows, in `program`.
passed=0 failed=0

# add COMMAND..: shows its output, and adds the counts of its last line. A part with no count is one failure.
add() {
    local out good bad status=0
    out=$(timeout 120 "$@") || status=$?
    printf '%s\n' "$out" | sed '$d'
    read -r good bad <<<"$(tail -n 1 <<<"$out" | sed -nE 's/^([0-9]+) passed, ([0-9]+) failed$/\1 \2/p')"
    good=${good:-0} bad=${bad:-1}
    [ "$status" -eq 0 ] || [ "$bad" -gt 0 ] || bad=1
    passed=$((passed + good)) failed=$((failed + bad))
}

# add_rows FOLDER: the rows of each file there, of which there has to be one.
add_rows() {
    local file files=("$1"/*.rows)
    [ -s "${files[0]}" ] || { echo "no rows"; failed=$((failed + 1)); return; }
    for file in "${files[@]}"; do
        add "${program[@]}" "$file"
    done
}

# refuses WHY TEXT [SAID]: of these rows one has to fail, and that has to be said.
refuses() {
    local out
    if out=$(printf '%s' "$2" | "${program[@]}" 2>&1); then
        echo "passed: $1"
        failed=$((failed + 1))
    elif [ "$(tail -n 1 <<<"$out")" != '0 passed, 1 failed' ] || [[ $out != *"${3:-}"* ]]; then
        echo "refused otherwise: $1: $out"
        failed=$((failed + 1))
    else
        passed=$((passed + 1))
    fi
}

# The last line, and the status.
tell_counts() {
    echo "$passed passed, $failed failed"
    [ "$failed" -eq 0 ]
}
