# Read by bench_store.sh and bench_compaction.sh, with their words: builds call_rows, and makes $work, a folder of its own
# in the folder that is named (the current one), which is removed at the end.
folder=$(cd "${1:-.}" && pwd)
cd "$(dirname "$0")/.."
(cd crates/call_rows && rt run </dev/null >/dev/null 2>&1) || [ -x crates/call_rows/out/call_rows ]
work=$(mktemp -d -p "$folder")
trap 'rm -rf "$work"' EXIT
