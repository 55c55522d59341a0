#!/bin/bash
# Times `check --source` as a whole, against plain Rust of the same work (check.rs over reference/), and against `check` and `assemble` of the
# same files by themselves, one after the other; the four run in turn, now in this order and now in the other one.
#
# `source.sh CASE ..` does so over the runs of these programs of sources.sh: `span`, of which one span has nearly 2^19 rows and operations;
# `flow` and `dispatch`, of some 430,000 and 490,000 rows in many blocks; `all`, with a kernel; and `splits` and `spans`, of some forty
# rows and a tree of 524,288 operations, which has a million blocks, of one height alike, or 60,000, of which no two are. Without a word
# all of them.
#
# Both sides print the same line and write the same evidence. Prints of each the least time of ten, by the clock and of the processor,
# and the peak memory. The ratio of the times is to be at most 1.2 to plain Rust, and at most 1.3 to the sum of `check` and `assemble`;
# the ratio of the peaks at most 1.1 to the greater one of these two. MIDEN is the program in place of the one that the script `miden`
# builds, RUNS how often all run, and LARGE_PAGES says which sides have large pages (command.py).
set -e
top=$(cd "$(dirname "$0")/.." && pwd)
work=$(mktemp -d)
trap 'rm -rf "$work"' EXIT
program=${MIDEN:-$top/crates/miden_cli/out/miden_cli} params=$top/examples/params/derived
[ -x "$program" ] || "$top/miden" >/dev/null || true
kernel=
# shellcheck source=bench/sources.sh
. "$top/bench/sources.sh"
# shellcheck source=bench/plain.sh
. "$top/bench/plain.sh"
make_plain check
cd "$work"

time_case() {
    local stack=${STACK-5,8}
    case $1 in splits | spans) stack=1,0,1,0,1,0,1,0,1,0,1,0,1,0,1,0,1,0,1 ;; esac
    STACK=$stack make_source "$1"
    # shellcheck disable=SC2086
    "$program" run "$params" program.masm inputs --out table --statement statement ${kernel:+--kernel "$kernel"} >ran || { cat ran; exit 1; }
    PYTHONDONTWRITEBYTECODE=1 PYTHONPATH=$top/bench python3 - "$1" "$program" "$params" "${RUNS:-10}" $kernel <<'PY'
import os
import sys

from command import run, same, setting

case, program, params, runs, *kernel = sys.argv[1:]
CHECK = [program, "check", params, "table", "statement", "--evidence"]
KERNEL = [word for name in kernel for word in ("--kernel", name)]
SIDES = {
    "plain Rust": ["./check", "source", params, "table", "statement", "plain.evidence", "program.masm", *kernel],
    "the program": [*CHECK, "evidence", "--source", "program.masm", *KERNEL],
    "check": [*CHECK, "run.evidence"],
    "assemble": [program, "assemble", params, "program.masm", *KERNEL],
}

came = {side: [] for side in SIDES}
order = list(SIDES)
for _ in range(int(runs)):
    for side in order:
        came[side].append(run(SIDES[side], setting("plain Rust" if side == "plain Rust" else "the program")))
    same(["evidence plain.evidence"], [came[side][-1][3] for side in ("plain Rust", "the program")])
    order.reverse()

for kind, place in ("by the clock", 0), ("of the processor", 1):
    plain, ours, check, assemble = (1000 * min(result[place] for result in results) for results in came.values())
    print(f"{case}: {kind}: plain Rust {plain:.0f} ms, the program {ours:.0f} ms, ratio {ours / plain:.2f} of at most 1.2; check {check:.0f} ms, "
          f"assemble {assemble:.0f} ms, ratio to their sum {ours / (check + assemble):.2f} of at most 1.3")
plain, ours, check, assemble = (max(result[2] for result in results) / 1024 for results in came.values())
print(f"{case}: peak memory: plain Rust {plain:.0f} MB, the program {ours:.0f} MB; check {check:.0f} MB, assemble {assemble:.0f} MB, "
      f"ratio to the greater {ours / max(check, assemble):.2f} of at most 1.1")
told = [[int(number) for number in result[4].split()] for result in came["plain Rust"]]
print(f"{case}: parts of plain Rust in ms, least of each: {' '.join(f'{min(part) / 1000:.0f}' for part in zip(*told))}")
print(f"{case}: load {os.getloadavg()[0]:.1f} on {os.cpu_count()} processors")
PY
}

echo "parts of plain Rust: read, decode, assemble, rows and counts, comparing, evidence"
cases=("$@")
[ $# != 0 ] || cases=(span flow dispatch all splits spans)
for case in "${cases[@]}"; do
    time_case "$case"
done
