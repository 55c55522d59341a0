#!/usr/bin/env python3
"""Changes what an accepted run with inputs below the sixteenth cell begins and ends with, one thing at a time, and has each checked:

    forge_inputs.py MIDEN PARAMS TABLE STATEMENT [TIMES [SEED]]

MIDEN is the program, as ./miden. TABLE has to be accepted for STATEMENT as it is. What is changed is the depth or the key of the first
row, the key of a cell that is left, or an input or an output of the statement; or the statement has one input more or less, or one output.
Each answer has to be a refusal, that the statement is malformed, or `accepted` with evidence that audit.py finds consistent. It prints
each change that was accepted, then how often each answer came, and ends with 1 at the first that is none of these. The changes are chosen
by SEED, a thousand where TIMES is missing.
"""
import copy
import json
import struct
import sys

from files import run, statement_in
from judging import Change, try_many
from rpo import P
from tables import COLUMNS, counts_in, place_of


def other(choice, old):
    """Another element, often one near by or the key of an input."""
    new = choice.choice([(old + 1) % P, (old - 1) % P, 0, 16, P - 1 - choice.randrange(1024), choice.randrange(P)])
    return new if new != old else (old + 2) % P


def with_cell(content, table, row, column, choice):
    """Another value in a cell, whose column is given by its number."""
    changed, place = bytearray(content), place_of(content, table, row, column)
    new = other(choice, struct.unpack_from("<Q", content, place)[0])
    struct.pack_into("<Q", changed, place, new)
    return Change(bytes(changed), f"{table} row {row} {COLUMNS[table][column]}={new}")


def restated(content, statement, choice):
    """The text of another statement."""
    claim = copy.deepcopy(statement)
    name = choice.choice(["inputs", "inputs", "outputs"])
    cells, kind = claim[name], choice.randrange(8)
    what = f"{name} as they are"
    if kind == 0 and cells:
        place = choice.randrange(len(cells))
        what = f"{name} without number {place}"
        del cells[place]
    elif kind == 1:
        place, new = choice.randrange(len(cells) + 1), choice.randrange(P)
        what = f"{name} with {new} in front of number {place}"
        cells.insert(place, new)
    elif cells:
        place = choice.randrange(len(cells))
        cells[place] = other(choice, cells[place])
        what = f"{name} with {cells[place]} as number {place}"
    return Change(content, what, json.dumps(claim, separators=(",", ":")))


def main():
    if not 5 <= len(sys.argv) <= 7:
        print("usage: forge_inputs.py MIDEN PARAMS TABLE STATEMENT [TIMES [SEED]]", file=sys.stderr)
        sys.exit(2)
    statement = statement_in(sys.argv[4])

    def forged(content, choice):
        left = counts_in(content)[-1]
        kind = choice.randrange(4)
        if kind == 0:
            return with_cell(content, "main", 0, choice.choice([46, 47]), choice)
        if kind == 1 and left > 0:
            return with_cell(content, "left", choice.randrange(left), 0, choice)
        return restated(content, statement, choice)

    try_many("forge_inputs.py", sys.argv[1:], forged, 1000)


run(main)
