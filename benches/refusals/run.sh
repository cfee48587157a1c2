#!/usr/bin/env bash
# Refuses each allocation of a test in turn, one a run, and prints how the runs ended: benches/refusals/run.sh [CRATE TEST]. Without words the test is that of
# commits to which memory is refused, in `book_tests`. benches/refusals/run.sh program [PROGRAM] does so with runs of `enc_cell` on small cells (program.py), or
# of another program with its words. Ends with status 1 where a run didn't end as it may. Wants rt, rustc and, for the program, python3.
set -euo pipefail
here=$(cd "$(dirname "$0")" && pwd)
top=$(cd "$here/../.." && pwd)
work=$(mktemp -d)
trap 'rm -rf "$work"' EXIT
rustc -O --edition 2021 --crate-type cdylib -o "$work/refuse.so" "$here/refuse.rs"
if [ "${1:-}" = program ]; then
    [ $# -gt 1 ] || "$top/enc_cell" check "$top/crates/enc_cell/data/minimal.000" >"$work/log"
    python3 "$here/program.py" "${2:-$top/crates/enc_cell/out/enc_cell}" "$work/refuse.so"
    exit
fi
crate=${1:-book_tests}
test=${2:-tests::memory::a_refused_commit_is_made_again}
(cd "$top/crates/$crate" && rt test) >"$work/log" 2>&1 || { tail "$work/log" >&2; exit 1; }

# a run of the test in which the allocation of a number is refused: what it wrote goes to `said`
run_test() {
    REFUSE=$1 LD_PRELOAD=$work/refuse.so "$top/crates/$crate/out/${crate}_tests" "$test" >"$work/said" 2>&1
}

failed=0
number=1
while run_test "$number" && is_well=yes || is_well=no; grep -q '^refused$' "$work/said"; do
    [ "$is_well" = yes ] && grep -q '^test result: ok' "$work/said" || { failed=$((failed + 1)); echo "allocation $number:"; tail -3 "$work/said"; }
    grep -v '^refused$' "$work/said" | head -1 >>"$work/ended"
    number=$((number + 1))
done
echo "$test: $((number - 1)) allocations, each refused in a run of its own, $failed runs failed"
sort "$work/ended" | uniq -c | sort -rn
[ "$failed" = 0 ]
