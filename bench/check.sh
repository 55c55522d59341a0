#!/bin/bash
# Two benches of `check` over the table file of a run, each against plain Rust (check.rs over reference/) in turn.
#
# `check.sh CASE` times the whole command over the run of one of the programs of sources.sh: the table file and its statement
# are read, its rows tested, its buses counted and compared, and the evidence is extracted and written, which must be the
# same text. Plain Rust makes the table file as well (fill.rs). The ratio of the times is to be at most 1.5, and the peak
# memory at most 2.5 times the table file. CASE is `span`, which is meant where there is none: nearly 2^19 rows of the main
# table; or `loop` or `flow`, of some 430,000; or `calls`, of 20,000 calls on a stack of DEPTH cells; or `all`, of some
# 79,000; or `dispatch`, a loop of dynamic blocks, of some 490,000, for which the ratio of the times is to be at most 1.2.
# TURNS is how often the source's outer body is repeated, MIDEN the program in place of the one that the script `miden` builds,
# RUNS how often both run, and where INSTRUCTIONS is set instructions are counted in place of times. LARGE_PAGES=ours runs the
# program as the script `miden` does, with large pages, and LARGE_PAGES=both plain Rust as well (command.py).
#
# `check.sh crates` times the parts by the crates that the command stands on, over a run of one span: reading the file,
# testing the rows of all its tables, and counting and comparing its buses, which is what `check` takes behind the rows.
# Prints the least time of each in microseconds and their ratio, which is to be at most 1.5, and the peak memory of the
# crates' program, which is to be at most 2.2 times the file. The file and the program over the crates are made in a
# temporary folder; what earlier checks left in the crates' folders out/ is used. Proving that program takes ten minutes and
# more.
set -e
top=$(cd "$(dirname "$0")/.." && pwd)
work=$(mktemp -d)
trap 'rm -rf "$work"' EXIT
kernel=
# shellcheck source=bench/sources.sh
. "$top/bench/sources.sh"
# shellcheck source=bench/plain.sh
. "$top/bench/plain.sh"
make_plain check fill

whole_command() {
    local program=${MIDEN:-$top/crates/miden_cli/out/miden_cli} params=$top/examples/params/derived
    [ -x "$program" ] || "$top/miden" >/dev/null || true
    cd "$work"
    make_source "$1"
    # shellcheck disable=SC2086
    ./fill "$params" program.masm inputs table statement $kernel >/dev/null 2>&1
    echo "parts of plain Rust: read, decode, rows and counts, comparing, evidence"
    local most=1.5
    [ "$1" != dispatch ] || most=1.2
    python3 "$top/bench/command.py" "check of $1" "$most" 2.5 table "${RUNS:-7}" \
        "$program" check "$params" table statement --evidence evidence \
        -- ./check check "$params" table statement plain.evidence -- "evidence plain.evidence"
}

if [ "$1" != crates ]; then
    whole_command "${1:-span}"
    exit
fi
# shellcheck source=bench/crates.sh
. "$top/bench/crates.sh"
# shellcheck source=bench/check_crates.sh
. "$top/bench/check_crates.sh"
make_bench_check 1
zeros=$top/examples/params/zeros
cd "$work"
turns=${TURNS:-4120}
TURNS=$turns DROPPED=$turns STACK='' make_source span
./fill "$zeros" program.masm inputs file statement >/dev/null 2>&1
cd "$work/crates/bench_check"
rt run >"$work/log" 2>&1 || { cat "$work/log"; exit 1; }
for _ in 1 2 3 4 5 6 7; do
    "$work/check" time "$zeros" "$work/file" >>"$work/plain.times"
    /usr/bin/time -a -o "$work/peaks" -f '%M' out/bench_check "$work/file" >>"$work/proved.times"
done
if [ "$(cut -d' ' -f1 "$work"/*.times | sort -u | wc -l)" != 1 ] || grep -q '[a-z]' "$work"/*.times; then
    echo "the results differ, or there is a fault"
    cat "$work"/*.times
    exit 1
fi
least() {
    cut -d' ' -f"$2" "$work/$1.times" | sort -n | head -1
}
ratio() {
    echo "scale=2; $1 / $2" | bc
}
echo "$(least plain 1) main rows"
for field in 2 3 4; do
    name=$(echo "reading,testing rows,comparing buses" | cut -d, -f$((field - 1)))
    plain=$(least plain $field)
    proved=$(least proved $field)
    echo "$name: plain Rust $plain us, the crates $proved us, ratio $(ratio "$proved" "$plain") of at most 1.5"
done
peak=$(sort -n "$work/peaks" | tail -1)
bytes=$(stat -c %s "$work/file")
echo "peak memory: $peak kB for a file of $((bytes / 1024)) kB, $(ratio "$peak" $((bytes / 1024))) times of at most 2.2"
