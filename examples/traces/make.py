#!/usr/bin/env python3
"""Writes the examples of table files and their statements, beside this script:

    sum.table, sum.json        the run of `begin push.2 push.3 add push.7 end`
    forged.table               the same with 8 in place of the 7 that the run ends with, in the table
    forged.json                and in the statement

It fills the tables by itself, under the constants in ../params/derived, and uses nothing of the program. docs/CONSTRAINTS.md
has the columns, docs/FORMATS.md the files.
"""
import json
import os
import sys

from files import params_in, run
from rpo import P, permutation, word_text
from tables import COLUMNS, written

HERE = os.path.dirname(os.path.abspath(__file__))
CODES = {"noop": 0, "add": 37, "push": 69, "span": 73, "end": 76, "halt": 79}


def permutation_rows(constants, state):
    """The eight rows of a permutation of a hash of one block: three flags and twelve elements."""
    return [[0, 0, 0] + row for row in permutation(constants, state)]


def range_rows(asked):
    """Each asked value with its count; between neighbours the greatest steps that do not pass the next one."""
    rows, value = [], 0
    for wanted in sorted(set(asked) | {0, 65535}):
        while value < wanted:
            rows.append([0, value])
            value += max(s for s in (1, 3, 9, 27, 81, 243, 729, 2187) if s <= wanted - value)
        value = wanted
    rows = [row for row in rows if row[1] not in asked] + [[asked.count(v), v] for v in set(asked)] + [[0, 65535]]
    return sorted(rows, key=lambda row: row[1])


def inverse(x):
    return pow(x % P, P - 2, P)


def main_row(clock, code, level, cells, depth, key, **named):
    named |= {"clk": clock, "fmp": 2**30, "depth": depth, "key": key, "inv": inverse(depth - 16), "lv": level}
    named |= {f"b{j}": code >> j & 1 for j in range(7)} | {f"s{j}": cells[j] for j in range(16)}
    named |= {"addr": 1 if level else 0, "ha": 1 if level else 0}
    return [named.get(column, 0) % P for column in COLUMNS["main"]]


def fill(constants):
    items = [("push", 2), ("push", 3), ("add", None), ("push", 7), ("noop", None)]
    group = sum(CODES[name] * 128**i for i, (name, _) in enumerate(items))
    batch = [group, 2, 3, 7, 0, 0, 0, 0]
    hasher = permutation_rows(constants, [0, 0, 0, 0] + batch)
    digest = hasher[7][7:11]
    stack, keys, taken, rows = [0] * 16, [], 1, []
    start = {f"h{j}": element for j, element in enumerate(batch)}
    rows.append(main_row(0, CODES["span"], 0, stack, 16, 0, c1=1, w0=inverse(3), **start))
    left = group
    for place, (name, value) in enumerate(items):
        clock, rest = place + 1, left - CODES[name]
        rows.append(main_row(clock, CODES[name], 1, stack, len(stack), keys[0] if keys else 0, sp=1, h0=left, gc=4 - taken, ox=place,
                             w3=inverse(rest)))
        if name == "push":
            stack, keys, taken = [value] + stack, [clock] + keys, taken + 1
        if name == "add":
            stack, keys = [(stack[0] + stack[1]) % P] + stack[2:], keys[1:]
        left = rest // 128
    end = {f"h{j}": element for j, element in enumerate(digest)}
    rows.append(main_row(6, CODES["end"], 1, stack, len(stack), keys[0], h5=1, **end))
    rows.append(main_row(7, CODES["halt"], 0, stack, len(stack), keys[0]))
    return [rows, range_rows([1023]), hasher, [], [], [], [[key] for key in keys]], word_text(digest), stack


def write(name, tables, digest, outputs):
    written(os.path.join(HERE, name + ".table"), tables)
    with open(os.path.join(HERE, name + ".json"), "w") as file:
        statement = {"digest": digest, "inputs": [], "kernel": [], "outputs": outputs}
        file.write(json.dumps(statement, separators=(",", ":")))


def main():
    if sys.argv[1:]:
        print("usage: make.py", file=sys.stderr)
        sys.exit(2)
    tables, digest, outputs = fill(params_in(os.path.join(HERE, "../params/derived")))
    write("sum", tables, digest, outputs)
    tables[0][-1][COLUMNS["main"].index("s0")] = outputs[0] = 8
    write("forged", tables, digest, outputs)


run(main)
