#!/usr/bin/env python3
"""Changes cells of an accepted table file, one at a time, and has each checked:

    forge_many.py MIDEN PARAMS TABLE STATEMENT [TIMES [SEED]]

MIDEN is the program, as ./miden. TABLE has to be accepted as it is. Then each answer has to be a refusal, or `accepted` with evidence
that audit.py finds consistent. It prints each cell that was changed and accepted, by its table, row, column and new value, then how often
each answer came, and ends with 1 at the first that is neither. The cells and their values are chosen by SEED, a thousand where TIMES is
missing.
"""
import struct
import sys

from files import run
from judging import Change, try_many
from rpo import P
from tables import HEAD, cell_at, cells_in


def forged(content, choice):
    """The bytes of a table file, with another value in one cell of any of its tables."""
    cell = choice.randrange(cells_in(content))
    old = struct.unpack_from("<Q", content, HEAD + 8 * cell)[0]
    new = choice.choice([(old + 1) % P, (old - 1) % P, 0, 1, choice.randrange(P)])
    new = new if new != old else (old + 2) % P
    changed = bytearray(content)
    struct.pack_into("<Q", changed, HEAD + 8 * cell, new)
    table, row, column = cell_at(content, cell)
    return Change(bytes(changed), f"{table} row {row} {column}={new}")


def main():
    try_many("forge_many.py", sys.argv[1:], forged, 1000)


run(main)
