#!/bin/bash
# Has random Merkle paths walked and their runs judged, by the program's `run` and `member`: member.sh SEED.
#
# PATHS paths, 200 where that is not given, of depth 1 to 64 in turn, are made by examples/merkle/tree.py. Each run has to end, and
# `member` to accept it for the leaf and the root, with the path as the tape of the evidence. At another depth `member` has to find
# another program, and for a statement with another input it has to refuse the file. With one element of the leaf, of the root, of a
# sibling or a bit changed the run has to trap, at its clock and for its cause. Prints how many there were of each, and ends with 1 at
# the first that is otherwise.
#
# Where OLD is the path of an earlier program, without the library, it times `assemble` of a source of near 1,000,000 bytes and 20,000
# procedures by both as well, of which now one runs first and now the other. Prints the least of RUNS times, 10 where that is not given,
# and their ratio, which is to be at most 1.05. MIDEN is the program in place of the one that the script `miden` builds.
set -e
case ${1:-} in
'' | *[!0-9]*)
    echo "give a seed, a number" >&2
    exit 2
    ;;
esac
top=$(cd "$(dirname "$0")/.." && pwd)
work=$(mktemp -d)
trap 'rm -rf "$work"' EXIT
program=${MIDEN:-$top/crates/miden_cli/out/miden_cli} params=$top/examples/params/derived
[ -x "$program" ] || "$top/miden" >/dev/null || true
export PYTHONDONTWRITEBYTECODE=1 PYTHONPATH=$top/examples/merkle:$top/bench
cd "$work"
python3 - "$1" "$program" "$params" "${PATHS:-200}" <<'PY'
import collections
import json
import random
import subprocess
import sys

import tree

seed, program, params, paths = sys.argv[1:]
constants = tree.constants_in(params)
choice = random.Random(seed)
MOST_DEPTH, LEVEL_OPERATIONS, BATCH_OPERATIONS = 64, 23, 72
# Among the operations of a level the one that tests the bit, and among those behind all levels the ones that compare elements 0 to 3.
TESTS_BIT, COMPARES = 6, [10, 8, 5, 2]
KINDS = ["leaf", "root", "sibling", "bit turned", "bit above 1"]
counts = collections.Counter()


def call(*words):
    ran = subprocess.run([program, *map(str, words)], capture_output=True, text=True, check=False)
    return ran.returncode, ran.stdout


def demand(is_right, what, *found):
    if not is_right:
        sys.exit(f"{what}: {found}")
    counts[what] += 1


def element():
    return choice.choice([choice.randrange(tree.P)] * 6 + [0, 1, tree.P - 1])


def other(old):
    new = element()
    return new if new != old else (old + 1) % tree.P


def changed(word):
    place = choice.randrange(4)
    return word[:place] + [other(word[place])] + word[place + 1:]


def run(leaf, root, path):
    with open("source", "w", encoding="ascii") as file:
        file.write(tree.program_of(len(path)))
    with open("inputs", "w", encoding="ascii") as file:
        file.write(tree.text_of(tree.inputs_of(leaf, root, path)))
    return call("run", params, "source", "inputs", "--out", "table", "--statement", "statement")


def member(depth, statement="statement"):
    return call("member", params, "table", statement, "--depth", depth, "--evidence", "evidence")


def clock_of(operation):
    """When an operation runs, counted from 0: behind the start of the span, and of each further batch before it."""
    return 1 + operation + operation // BATCH_OPERATIONS


def failure(leaf, root, path):
    """How the run of a path that does not lead from the leaf to the root traps."""
    for level, (_, bit) in enumerate(path):
        if bit > 1:
            return f"trap {clock_of(LEVEL_OPERATIONS * level + TESTS_BIT)} NotBinary\n"
    differing = [compares for compares, a, b in zip(COMPARES, tree.root_of(constants, leaf, path), root) if a != b]
    return f"trap {clock_of(LEVEL_OPERATIONS * len(path) + min(differing))} AssertFailed\n"


def with_change(kind, leaf, root, path):
    """A leaf, a root and a path, of which this one thing is changed."""
    if kind == "leaf":
        return changed(leaf), root, path
    if kind == "root":
        return leaf, changed(root), path
    level = choice.randrange(len(path))
    sibling, bit = path[level]
    step = {"sibling": (changed(sibling), bit), "bit turned": (sibling, 1 - bit), "bit above 1": (sibling, max(2, element()))}[kind]
    return leaf, root, path[:level] + [step] + path[level + 1:]


def judge(leaf, root, path):
    """Has a run that ended judged: for its depth, for another one, and for another statement."""
    line = f"member {tree.word_text(leaf)} {tree.word_text(root)}\n"
    answer = member(len(path))
    demand(answer == (0, line), "member", answer, line)
    with open("evidence", encoding="ascii") as file:
        tape = file.read().splitlines()[2].split()[1:]
    advice = tree.inputs_of(leaf, root, path)["advice"]
    demand(tape == [str(cell) for cell in advice], "the path is the tape of the evidence", tape)
    answer = member(choice.choice([depth for depth in range(1, MOST_DEPTH + 1) if depth != len(path)]))
    demand(answer[0] == 14 and answer[1].startswith("other program "), "another depth", answer)
    with open("statement", encoding="ascii") as file:
        statement = json.load(file)
    place = choice.randrange(8)
    statement["inputs"][place] = other(statement["inputs"][place])
    with open("changed", "w", encoding="ascii") as file:
        json.dump(statement, file)
    answer = member(len(path), "changed")
    demand(answer[0] == 1 and answer[1].startswith("refused "), "a changed input of the statement is refused", answer)


for number in range(int(paths)):
    leaf = [element() for _ in range(4)]
    path = [([element() for _ in range(4)], choice.randrange(2)) for _ in range(1 + number % MOST_DEPTH)]
    root = tree.root_of(constants, leaf, path)
    answer = run(leaf, root, path)
    demand(answer[0] == 0 and answer[1].splitlines()[1:] == ["outputs" + " 0" * 16], "run", answer)
    judge(leaf, root, path)
    kind = KINDS[number % len(KINDS)]
    forged = with_change(kind, leaf, root, path)
    answer = run(*forged)
    demand(answer == (4, failure(*forged)), f"trap: {kind}", answer, failure(*forged))
print(f"seed {seed}: " + ", ".join(f"{what} {count}" for what, count in counts.items()))
PY

[ -n "${OLD:-}" ] || exit 0
python3 - "$OLD" "$program" "$params" "${RUNS:-10}" <<'PY'
import os
import sys

from command import run

old, program, params, runs = sys.argv[1:]
BODIES = ["push.17 add dup mul swap drop", "neg add.5 mul.3", "if.true neg else add end", "repeat.3 neg swap end", "while.true dup end"]
COUNT = 20300
with open("source", "w", encoding="ascii") as file:
    file.writelines(f"proc.f{i} {BODIES[i % 5]} end\n" for i in range(COUNT))
    file.writelines(["begin\n", *(f"{'exec' if i % 50 else 'call'}.f{i}\n" for i in range(COUNT)), "end\n"])
came = {"without the library": [], "with it": []}
order = list(zip(came, [old, program]))
for _ in range(int(runs)):
    for side, path in order:
        came[side].append(run([path, "assemble", params, "source"]))
    order.reverse()
if len({result[3] for results in came.values() for result in results}) != 1:
    sys.exit("the digests differ")
for kind, place in ("by the clock", 0), ("of the processor", 1):
    before, now = (1000 * min(result[place] for result in results) for results in came.values())
    print(f"assemble of {os.path.getsize('source')} bytes: {kind}: without the library {before:.1f} ms, with it {now:.1f} ms, "
          f"ratio {now / before:.2f} of at most 1.05")
print(f"load {os.getloadavg()[0]:.1f} on {os.cpu_count()} processors")
PY
