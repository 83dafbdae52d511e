#!/bin/bash
# Nothing but the layer over the system's own file calls may name the lemma that meets its assumed contracts: whoever else
# cited it could prove anything of real files. The last line is 'N passed, M failed'.
set -u -o pipefail
cd "$(dirname "$0")/.." || exit 2
lemma=nothing_claimed
allowed='^crates/st_disk/(specs/SystemModel\.antt|src/system_folder\.rt|proofs/system_folder/.*)$'
names=$(grep -rlw "$lemma" crates --include='*.rt' --include='*.antt' --exclude-dir=out)
wrong=$(printf '%s\n' "$names" | grep -vE "$allowed" | grep .)
[ -z "$wrong" ] || printf '%s\n' "$wrong" | sed "s/^/names $lemma: /"
passed=$(printf '%s\n' "$names" | grep -cE "$allowed")
failed=$(printf '%s' "$wrong" | grep -c .)
# With none at all the lemma has another name, and this looks for nothing.
[ "$passed" -gt 0 ] || failed=$((failed + 1))
echo "$passed passed, $failed failed"
[ "$failed" -eq 0 ]
