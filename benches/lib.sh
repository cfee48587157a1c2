# What run.sh is made of. It sets `benches`, this folder, `work`, a folder for what is built and timed, `case_name`, `runs`, and `other`, a program
# to be timed beside `enc_cell`, or nothing.
top=$(dirname "$benches")
minimal=$top/crates/enc_cell/data/minimal.000
TIMEFORMAT='%3U %3R'

# builds `enc_cell`, and writes the files of its runs
build_program() {
    local size
    "$top/enc_cell" check "$minimal" >"$work/log"
    cp "$top/crates/enc_cell/out/enc_cell" "$work/program"
    python3 "$benches/cells.py" "$minimal" "$work"
    [ ! -f "$benches/$case_name.py" ] || python3 "$benches/$case_name.py" "$minimal" "$work"
    for size in 25 50 100; do
        "$work/program" make "$size" "$work/MADE_$size" >"$work/log"
    done
    programs=(program)
    [ -z "$other" ] || { cp "$other" "$work/other"; programs+=(other); }
}

# builds `enc_draw`, and writes the files of its runs
build_draw() {
    "$top/enc_draw" "$minimal" >"$work/log"
    cp "$top/crates/enc_draw/out/enc_draw" "$work/draw"
    python3 "$benches/cells.py" "$minimal" "$work"
}

build_measure() {
    (cd "$top/crates/measure" && rt run measure -- baseline 1) >"$work/log" 2>&1 || { cat "$work/log" >&2; exit 1; }
    cp "$top/crates/measure/out/measure" "$work/measure"
}

build_plain() {
    [ ! -f "$benches/plain/$case_name.rs" ] || rustc -O -o "$work/plain" "$benches/plain/$case_name.rs"
}

# one run of a program: user seconds, seconds and the nanoseconds that it says go to NAME.times, the last word of its output to NAME.said
one_run() {
    local name=$1
    shift
    { time (cd "$work" && "$@" >output 2>errors) || echo "status $?" >>"$work/output"; } 2>"$work/time"
    echo "$(cat "$work/time") $(sed -n 's/ ns$//p' "$work/errors")" >>"$work/$name.times"
    awk '{ last = $NF } END { print last }' "$work/output" >"$work/$name.said"
}

# the time of a rank among the runs: user seconds in column 1, seconds by the clock in 2, nanoseconds in 3
time_of() {
    sort -n -k "$2,$2" "$work/$1.times" | awk -v rank="$3" -v column="$2" 'NR == rank { print $column }'
}

# the most memory of a run
megabytes() {
    (cd "$work" && command time -f %M "$@" 2>&1 >output) | awk 'END { printf "%.0f", $1 / 1024 }'
}

# a row of a program that runs alone
alone_row() {
    local program=$1
    shift
    rm -f "$work"/main.*
    for _ in $(seq "$runs"); do
        one_run main "$work/$program" "$@"
    done
    awk -v name="$program $*" -v user="$(time_of main 1 1)" -v clock="$(time_of main 2 1)" -v memory="$(megabytes "$work/$program" "$@")" \
        -v said="$(cat "$work/main.said")" \
        'BEGIN { printf "%-45s %8.0f ms %8.0f ms by the clock %5d MB, ends with %s\n", name, user * 1e3, clock * 1e3, memory, said }'
}

# plain Rust's word for a work of `measure`
plain_work() {
    local same=${2#"$case_name"_}
    [ "$1" = plain ] && echo "$same" || echo "$1_$same"
}

# runs of a work of `measure` and of works of plain Rust, which take turns, since other work may disturb them, and say the same
take_turns() {
    local kind=$1 measured=$2 size=$3 name
    shift 3
    for _ in $(seq "$runs"); do
        one_run "$kind.measure" "$work/measure" "$measured" "$size"
        for name in "$@"; do
            one_run "$kind.$name" "$work/plain" "$(plain_work "$name" "$measured")" "$size"
            cmp "$work/$kind.measure.said" "$work/$kind.$name.said"
        done
    done
}

# the least time of `measure` or of a work of plain Rust, in the unit of HOW
figure() {
    local how=$1 name=$2 size=$3 column=3 unit base=0
    case $how in
        each) column=1 unit=${size}e-6 ;;
        user:*) column=1 unit=${how##*:}e-6 ;;
        clock | net:*) unit=1e6 ;;
        calls) unit=$((size - 1))e6 ;;
    esac
    [ ! -f "$work/base.$name.times" ] || base=$(time_of "base.$name" $column 1)
    awk -v time="$(time_of "main.$name" $column 1)" -v base="$base" -v unit="$unit" 'BEGIN { printf "%.3f", (time - base) / unit }'
}

# a row of times: `measure`, then each work of plain Rust with the ratio to it
timed_row() {
    local how=$1 measured=$2 size=$3 name ours theirs fill
    shift 3
    rm -f "$work"/main.* "$work"/base.*
    take_turns main "$measured" "$size" "$@"
    case $how in
        net:* | user:*)
            fill=${how#*:}
            take_turns base "${case_name}_${fill%:*}" "$size" "$@"
            ;;
        calls) take_turns base "$measured" 1 "$@" ;;
    esac
    ours=$(figure "$how" measure "$size")
    printf '%-20s %8s %10s %-20s' "$measured" "$size" "$ours" "$how"
    for name in "$@"; do
        theirs=$(figure "$how" "$name" "$size")
        printf ' %10s %-6s %5s' "$theirs" "$name" "$(awk -v a="$ours" -v b="$theirs" 'BEGIN { if (b > 0) printf "%.2f", a / b }')"
    done
    echo
}

# a row of turns a second, the best and the middle
turns_row() {
    local measured=$1 threads=$2 name rank
    shift 2
    rm -f "$work"/main.*
    take_turns main "$measured" "$threads" "$@"
    printf '%2d threads' "$threads"
    for name in measure "$@"; do
        for rank in 1 $(((runs + 1) / 2)); do
            printf ' %12s' "$(awk -v n="$threads" -v time="$(time_of "main.$name" 3 "$rank")" 'BEGIN { printf "%.0f", int(320000 / n) * n * 1e9 / time }')"
        done
        printf ' %-8s' "$name"
    done
    echo
}

# a row of the most memory
memory_row() {
    local measured=$1 size=$2 name
    shift 2
    printf '%-20s %8s %10s MB                  ' "$measured" "$size" "$(megabytes "$work/measure" "$measured" "$size")"
    for name in "$@"; do
        printf ' %10s %-6s' "$(megabytes "$work/plain" "$(plain_work "$name" "$measured")" "$size")" "$name"
    done
    echo
}

# one run of a program with so many commits, each of which it is to accept
run_commits() {
    local name=$1 count=$2
    shift 2
    one_run "main.$name" "$work/$name" "$@"
    [ "$(grep -c '^commit accepted' "$work/output")" = "$count" ] || { echo "$name $*: not every commit was accepted" >&2; exit 1; }
}

# what a commit costs a program, in microseconds: of the processor (column 1) or by the clock (2)
cost() {
    awk -v all="$(time_of "main.$1" "$2" 1)" -v none="$(time_of "base.$1" "$2" 1)" -v count="$3" 'BEGIN { printf "%.1f", (all - none) * 1e6 / count }'
}

# rows of what a commit costs: runs with so many, which take turns with runs of an empty script, and those of the other program with these
commit_rows() {
    local count=$1 name none=(NONE)
    shift
    [ "$1" = room ] || none=(ORDER_0 NONE)
    rm -f "$work"/main.* "$work"/base.*
    for _ in $(seq "$runs"); do
        for name in "${programs[@]}"; do
            one_run "base.$name" "$work/$name" "$1" "$2" OUT "${none[@]}"
            run_commits "$name" "$count" "$@"
        done
    done
    for name in "${programs[@]}"; do
        printf '%-30s %-8s without commits %5.0f ms, %5.0f ms by the clock; a commit %8s us, %8s us by the clock; %5d MB\n' "$1 $2 ${!#}" "$name" \
            "$(time_of "base.$name" 1 1)e3" "$(time_of "base.$name" 2 1)e3" "$(cost "$name" 1 "$count")" "$(cost "$name" 2 "$count")" \
            "$(megabytes "$work/$name" "$@")"
    done
}
