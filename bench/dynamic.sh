#!/bin/bash
# Benches of dynamic blocks, each against plain Rust (over reference/), of which now one side runs first and now the other.
#
# `dynamic.sh assemble` times `assemble` as a whole, against digest.rs, over sources of near 1,000,000 bytes with many procrefs and one
# dynexec: `targets`, of some 18,000 procedures, of each of which the program puts the digest on the stack; `chain`, of some 27,000, each
# of which does so with the one before it; and `names`, of forty procedures that are named some 73,000 times where nothing is run. Both
# print the same digest. Prints the least time of ten, the peak memory of both, and the ratios, each of which is to be at most 1.3.
#
# `dynamic.sh run` and `dynamic.sh check` time these commands as a whole, `check` with its evidence, over a loop that takes one of sixteen
# procedures 5,000, 10,000 and 20,000 times (run.sh and check.sh, CASE `dispatch`), ten times each; the ratios are to be at most 1.2. Behind
# them stand the processor's microseconds of a turn, which are to stay the same as the turns grow: what a turn shows of the dynamic block
# is merged into what those before it show.
#
# Without a word all of these. MIDEN is the program in place of the one that the script `miden` builds, RUNS how often both run.
# Programs without a dynamic block are timed by run.sh and check.sh, with MIDEN once this program and once an earlier one.
set -e
top=$(cd "$(dirname "$0")/.." && pwd)
work=$(mktemp -d)
trap 'rm -rf "$work"' EXIT
program=${MIDEN:-$top/crates/miden_cli/out/miden_cli}
[ -x "$program" ] || "$top/miden" >/dev/null || true
# shellcheck source=bench/plain.sh
. "$top/bench/plain.sh"

time_assemble() {
    make_plain digest
    python3 - "$work" "$program" "$top/examples/params/derived" "${RUNS:-10}" <<'PY'
import os
import subprocess
import sys
import tempfile
import time

work, program, params, runs = sys.argv[1:]
os.chdir(work)
LENGTH = 1_000_000


def targets(count):
    lines = [f"proc.f{i} neg swap add.{i + 1} end" for i in range(count)]
    return lines + ["begin"] + [f"procref.f{i} dropw" for i in range(count)] + ["dynexec", "end"]


def chain(count):
    lines = ["proc.c0 neg end"] + [f"proc.c{i} procref.c{i - 1} dropw end" for i in range(1, count)]
    return lines + [f"begin procref.c{count - 1} dynexec end"]


def names(count):
    lines = [f"proc.f{i} push.{i} drop end" for i in range(40)]
    lines += [f"proc.u{i} " + " ".join(f"procref.f{(7 * i + j * j) % 40}" for j in range(8)) + " end" for i in range(count)]
    return lines + ["begin procref.f39 dynexec end"]


def source_of(case):
    """The longest source of a case that is no longer than LENGTH."""
    low, high = 1, LENGTH
    while high - low > 1:
        middle = (low + high) // 2
        if sum(len(line) + 1 for line in case(middle)) <= LENGTH:
            low = middle
        else:
            high = middle
    return "".join(f"{line}\n" for line in case(low))


def run(words):
    """Seconds by the clock, megabytes, and what is printed."""
    with tempfile.TemporaryFile("w+") as out:
        start = time.monotonic()
        child = subprocess.Popen(words, stdout=out)
        _, status, usage = os.wait4(child.pid, 0)
        seconds = time.monotonic() - start
        child.returncode = status
        out.seek(0)
        printed = out.read()
    if status != 0:
        sys.exit(f"{words} did not end well: {printed[:200]}")
    return seconds, usage.ru_maxrss / 1000, printed


for case in (targets, chain, names):
    name = case.__name__
    text = source_of(case)
    with open(name, "w", encoding="utf-8") as file:
        file.write(text)
    sides = {"plain Rust": ["./digest", "digest", params, name], "the program": [program, "assemble", params, name]}
    came = {side: [] for side in sides}
    order = list(sides)
    for _ in range(int(runs)):
        for side in order:
            came[side].append(run(sides[side]))
        order.reverse()
    if len({result[2] for results in came.values() for result in results}) != 1:
        sys.exit(f"{name}: what is printed differs: { {side: results[0][2][:200] for side, results in came.items()} }")
    (plain, plain_peak), (ours, peak) = ((min(it[0] for it in results), max(it[1] for it in results)) for results in came.values())
    print(f"assemble of {name}: {len(text)} bytes, {text.count('procref')} procrefs: plain Rust {1000 * plain:.0f} ms, {plain_peak:.0f} MB, "
          f"the program {1000 * ours:.0f} ms, {peak:.0f} MB, ratios {ours / plain:.2f} and {peak / plain_peak:.2f} of at most 1.3")
print(f"load {os.getloadavg()[0]:.1f} on {os.cpu_count()} processors")
PY
}

# Both sides of a command at three lengths, and what a turn takes of the processor.
time_command() {
    local turns
    for turns in 5000 10000 20000; do
        echo "$turns turns"
        MIDEN=$program TURNS=$turns RUNS=${RUNS:-10} "$top/bench/$1.sh" dispatch
    done | tee "$work/$1"
    awk -v command="$1" '
        / turns$/ { turns = $1 }
        / of the processor: / && match($0, /plain Rust [0-9]+/) { plain[turns] = substr($0, RSTART + 11, RLENGTH - 11) }
        / of the processor: / && match($0, /the program [0-9]+/) { ours[turns] = substr($0, RSTART + 12, RLENGTH - 12) }
        END {
            for (turns = 5000; turns <= 20000; turns *= 2)
                printf "%s: %d turns: plain Rust %.1f us a turn, the program %.1f us a turn\n", command, turns,
                    1000 * plain[turns] / turns, 1000 * ours[turns] / turns
        }' "$work/$1"
}

case ${1:-all} in
assemble) time_assemble ;;
run | check) time_command "$1" ;;
all)
    time_assemble
    time_command run
    time_command check
    ;;
*)
    echo "give assemble, run or check, or no word" >&2
    exit 2
    ;;
esac
