#!/bin/bash
# What pieces save. Two benches over the table file of a run of one span, of nearly 2^19 main rows.
#
# `pieces.sh`, or `pieces.sh CASE` over another program of sources.sh, times the whole command `check` in 4 pieces against plain Rust
# (check.rs over reference/), first in one thread and then in the same 4 pieces, in turn; both write the same evidence. The ratio of the
# times is to be at most 1.5 where plain Rust has the same pieces, and at most 1 where it has one thread and 4 processors are idle. The
# peak memory is to be at most 2.5 times the table file. PIECES is another number of pieces, TURNS how often the source's outer body is
# repeated, MIDEN the program in place of the one that the script `miden` builds, RUNS how often both run, and LARGE_PAGES which sides
# have large pages (command.py).
#
# `pieces.sh crates` times testing the rows, and counting and comparing the buses, by the crates that the command stands on, in one
# piece and in 4, and prints the least time of each in microseconds and their ratio. The program over the crates is made in a
# temporary folder; what earlier checks left in the crates' folders out/ is used. Proving that program takes ten minutes and more.
#
# Both print the load of the machine before and behind, and how many processors it has: where others use them, pieces save nothing.
set -e
top=$(cd "$(dirname "$0")/.." && pwd)
work=$(mktemp -d)
trap 'rm -rf "$work"' EXIT
kernel=
pieces=${PIECES:-4}
# shellcheck source=bench/sources.sh
. "$top/bench/sources.sh"
# shellcheck source=bench/plain.sh
. "$top/bench/plain.sh"
make_plain check fill

load() {
    echo "load $(cut -d' ' -f1 /proc/loadavg) on $(nproc) processors"
}

whole_command() {
    local program=${MIDEN:-$top/crates/miden_cli/out/miden_cli} params=$top/examples/params/derived
    [ -x "$program" ] || "$top/miden" >/dev/null || true
    cd "$work"
    make_source "$1"
    # shellcheck disable=SC2086
    ./fill "$params" program.masm inputs table statement $kernel >/dev/null 2>&1
    load
    echo "parts of plain Rust: read, decode, rows and counts, comparing, evidence"
    for threads in 1 "$pieces"; do
        most=1.5
        [ "$threads" = "$pieces" ] || most=1
        python3 "$top/bench/command.py" "check in $pieces pieces, plain Rust in $threads" "$most" 2.5 table "${RUNS:-7}" \
            "$program" check "$params" table statement --evidence evidence --pieces "$pieces" \
            -- ./check check "$params" table statement plain.evidence "$threads" -- "evidence plain.evidence"
    done
    load
}

if [ "$1" != crates ]; then
    whole_command "${1:-span}"
    exit
fi
# shellcheck source=bench/crates.sh
. "$top/bench/crates.sh"
# shellcheck source=bench/check_crates.sh
. "$top/bench/check_crates.sh"
make_bench_check 1 "$pieces"
cd "$work"
turns=${TURNS:-4120}
TURNS=$turns DROPPED=$turns STACK='' make_source span
./fill "$top/examples/params/zeros" program.masm inputs file statement >/dev/null 2>&1
cd "$work/crates/bench_check"
rt run >"$work/log" 2>&1 || { cat "$work/log"; exit 1; }
load
for _ in 1 2 3 4 5 6 7; do
    out/bench_check "$work/file" >"$work/times"
    if grep -q '[a-z]' "$work/times"; then
        echo "there is a fault"
        cat "$work/times"
        exit 1
    fi
    sed -n 1p "$work/times" >>"$work/one"
    sed -n 2p "$work/times" >>"$work/more"
done
load
least() {
    cut -d' ' -f"$2" "$work/$1" | sort -n | head -1
}
echo "$(least one 1) main rows"
for field in 3 4; do
    name=$(echo "testing rows,comparing buses" | cut -d, -f$((field - 2)))
    one=$(least one $field)
    more=$(least more $field)
    echo "$name: in one piece $one us, in $pieces $more us, ratio $(echo "scale=2; $more / $one" | bc)"
done
