#!/usr/bin/env bash
# Times a case of the file `cases` beside this script: benches/run.sh CASE [RUNS [OTHER]]. Each figure is the least of RUNS runs (7 if left out).
# OTHER is another program with the words of `enc_cell`: in rows of commits it is timed beside it, and what it prints isn't compared.
# Wants rt, rustc, python3 and GNU time.
set -euo pipefail
benches=$(cd "$(dirname "$0")" && pwd)
case_name=${1:-}
runs=${2:-7}
other=${3:-}
mapfile -t rows < <(awk -v name="$case_name" '$1 == name' "$benches/cases")
if [ "${#rows[@]}" = 0 ]; then
    echo "usage: benches/run.sh CASE [RUNS [OTHER]], where CASE is one of" $(awk '!/^#/ { print $1 }' "$benches/cases" | uniq) >&2
    exit 2
fi
work=$(mktemp -d)
trap 'rm -rf "$work"' EXIT
. "$benches/lib.sh"
build_plain
case " ${rows[*]} " in
    *" program "* | *" commits:"*) build_program ;;
    *" draw "*) build_draw ;;
    *) build_measure ;;
esac
for row in "${rows[@]}"; do
    read -r -a words <<<"$row"
    case ${words[1]} in
        program | draw | plain) alone_row "${words[@]:1}" ;;
        commits:*) commit_rows "${words[1]#commits:}" "${words[@]:2}" ;;
        memory) memory_row "${words[@]:2}" ;;
        turns) turns_row "${words[@]:2}" ;;
        *) timed_row "${words[@]:1}" ;;
    esac
done
