#!/bin/bash
# Compares the procedures of the library on numbers of 64 bits with plain arithmetic, by the program's `run`.
#
# `u64.sh SEED` gives each of the eleven PAIRS pairs of numbers, 10,000 where that is not given: those of the edges 0, 1, 2^32 - 1, 2^32
# and 2^64 - 1, and pairs that SEED chooses, many of which are equal or differ in one limb or by one. A run takes thousands of pairs from
# its tape, each with its results, and compares; the cells below have to stay as they were. Pairs whose result is out of range, and limbs
# of 2^32 and more, are a call each, which has to trap at its clock for its cause. The library's lists have to have the digests of the
# lists as they stand here. Prints how many were compared, and ends with 1 at the first that differs.
#
# Where LISTS is `own`, each source defines the procedures itself by the lists as they stand here, for a program without the library.
# MIDEN is the program in place of the one that the script `miden` builds.
set -e
case ${1:-} in
'' | *[!0-9]*)
    echo "give a seed, a number" >&2
    exit 2
    ;;
esac
top=$(cd "$(dirname "$0")/.." && pwd)
work=$(mktemp -d)
trap 'rm -rf "$work"' EXIT
program=${MIDEN:-$top/crates/miden_cli/out/miden_cli}
[ -x "$program" ] || "$top/miden" >/dev/null || true
cd "$work"
python3 - "$1" "$program" "$top/examples/params/derived" "${PAIRS:-10000}" "${LISTS:-}" <<'PY'
import itertools
import json
import random
import subprocess
import sys

seed, program, params, pairs, lists = sys.argv[1:]
P = 2**64 - 2**32 + 1
EDGES = [0, 1, 2**32 - 1, 2**32, 2**64 - 1]
# How many pairs a run takes, how many calls of a procedure trap for a cause, and what lies below the numbers.
BATCH, TRAPS, BELOW = 2500, 30, list(range(1, 17))

EXCHANGE = "movup.3 movup.3 "
ADD = "swap movup.3 u32overflowing_add movup.3 movup.3 u32overflowing_add3"
SUB = "movup.3 movup.2 u32overflowing_sub movup.3 movup.3 u32overflowing_sub swap movup.2 u32overflowing_sub movup.2 or"
LESS = SUB + " movdn.2 drop drop"


def limbs(number):
    return [number >> 32, number % 2**32]


def in_range(number):
    return limbs(number) if 0 <= number < 2**64 else None


# Of each procedure the list, the clocks at which it tests the limbs of b and of a, the high one first, and the cells that take the place
# of b and a, none where they are out of range.
PROCEDURES = {
    "u64_overflowing_add": (ADD, (6, 3, 6, 3), lambda b, a: [a + b >> 64, *limbs((a + b) % 2**64)]),
    "u64_wrapping_add": (ADD + " drop", (6, 3, 6, 3), lambda b, a: limbs((a + b) % 2**64)),
    "u64_checked_add": (ADD + " assertz", (6, 3, 6, 3), lambda b, a: in_range(a + b)),
    "u64_overflowing_sub": (SUB, (6, 3, 6, 3), lambda b, a: [int(a < b), *limbs((a - b) % 2**64)]),
    "u64_wrapping_sub": (SUB + " drop", (6, 3, 6, 3), lambda b, a: limbs((a - b) % 2**64)),
    "u64_checked_sub": (SUB + " assertz", (6, 3, 6, 3), lambda b, a: in_range(a - b)),
    "u64_lt": (LESS, (6, 3, 6, 3), lambda b, a: [int(a < b)]),
    "u64_gte": (LESS + " not", (6, 3, 6, 3), lambda b, a: [int(a >= b)]),
    "u64_gt": (EXCHANGE + LESS, (8, 5, 8, 5), lambda b, a: [int(a > b)]),
    "u64_lte": (EXCHANGE + LESS + " not", (8, 5, 8, 5), lambda b, a: [int(a <= b)]),
    "u64_eq": ("u32assertw movup.2 eq movdn.2 eq and", (1, 1, 4, 4), lambda b, a: [int(a == b)]),
}


def call(command, source, inputs=None):
    """The status of a command, and what it prints."""
    words = [program, command, params, "source"]
    with open("source", "w", encoding="ascii") as file:
        file.write(source)
    if command == "run":
        with open("inputs", "w", encoding="ascii") as file:
            json.dump(inputs, file)
        words += ["inputs", "--out", "table", "--statement", "statement"]
    ran = subprocess.run(words, capture_output=True, text=True, check=False)
    return ran.returncode, ran.stdout


def source_of(name, body):
    """A program, with the procedure where the library does not give it."""
    return (f"proc.{name} {PROCEDURES[name][0]} end\n" if lists == "own" else "") + f"begin {body} end\n"


def agree(name, batch):
    """Whether the procedure gives the results of all pairs, and what is printed."""
    results = PROCEDURES[name][2]
    compare = " adv_push.1 assert_eq" * len(results(*batch[0]))
    tape = [cell for b, a in batch for cell in [*limbs(a)[::-1], *limbs(b)[::-1], *results(b, a)]]
    source = source_of(name, f"repeat.{len(batch)} adv_push.4 exec.{name}{compare} end")
    status, printed = call("run", source, {"advice": tape, "stack": BELOW})
    outputs = "outputs" + "".join(f" {cell}" for cell in BELOW)
    return status == 0 and printed.splitlines()[1:] == [outputs], printed


def trap(name, cells, line):
    """Has the procedure trap on these cells."""
    answer = call("run", source_of(name, f"exec.{name}"), {"advice": [], "stack": cells})
    if answer != (4, line + "\n"):
        sys.exit(f"{name} on {cells}: {answer} in place of {line}")


def number(choice):
    return choice.choice([choice.randrange(2**64), choice.randrange(2**64), choice.randrange(2**32), choice.choice(EDGES)])


def pairs_of(choice):
    """Pairs b and a without end, those of the edges first."""
    yield from itertools.product(EDGES, EDGES)
    while True:
        a = number(choice)
        near = [a, (a + 1) % 2**64, (a - 1) % 2**64, a >> 32 << 32 | choice.randrange(2**32), a % 2**32 | choice.randrange(2**32) << 32]
        yield choice.choice([number(choice), number(choice), *near]), a


def wide_cells(choice):
    """Limbs without end of which one or more are 2^32 or greater, each alone first."""
    for wide in [1, 2, 4, 8]:
        yield [2**32 if wide >> j & 1 else 7 for j in range(4)]
    while True:
        wide = choice.randrange(1, 16)
        yield [choice.choice([2**32, P - 1, choice.randrange(2**32, P)]) if wide >> j & 1 else choice.randrange(2**32) for j in range(4)]


def compare(name, results, choice):
    """Compares the results of pairs."""
    good = list(itertools.islice((pair for pair in pairs_of(choice) if results(*pair) is not None), int(pairs)))
    for place in range(0, len(good), BATCH):
        batch = good[place:place + BATCH]
        is_right, printed = agree(name, batch)
        if not is_right:
            wrong = next((pair for pair in batch if not agree(name, [pair])[0]), "of these pairs")
            sys.exit(f"{name}: b and a {wrong}: {printed}")
    return len(good)


def traps(name, own, clocks, results, choice):
    """Has the procedure trap at wide limbs, and where its result is out of range. How often it did for each cause."""
    for cells in itertools.islice(wide_cells(choice), TRAPS):
        trap(name, cells, f"trap {min(clock for clock, limb in zip(clocks, cells) if limb >= 2**32)} NotU32")
    if "checked" not in name:
        return TRAPS, 0
    for b, a in itertools.islice((pair for pair in pairs_of(choice) if results(*pair) is None), TRAPS):
        trap(name, limbs(b) + limbs(a), f"trap {len(own.split()) + 1} AssertFailed")
    return TRAPS, TRAPS


counts = []
for name, (own, clocks, results) in PROCEDURES.items():
    choice = random.Random(f"{seed} {name}")
    if lists != "own" and call("assemble", f"begin exec.{name} end") != call("assemble", f"proc.own {own} end begin exec.own end"):
        sys.exit(f"{name}: the library has another list")
    counts.append((compare(name, results, choice), *traps(name, own, clocks, results, choice)))
    print("{}: {} results, {} traps NotU32, {} traps AssertFailed".format(name, *counts[-1]))
print("seed {}: {} results, {} traps NotU32, {} traps AssertFailed, all as they have to be".format(seed, *map(sum, zip(*counts))))
PY
