#!/usr/bin/env python3
"""Changes cells of a table file, one or more of them:

    forge.py TABLE ROW COLUMN VALUE [ROW COLUMN VALUE ..] FORGED

writes to FORGED what stands in TABLE, with each VALUE in the cell in front of it. Rows count from 0. COLUMN is a column of the main
table by its name, as s0, or by its number, or one of another table with the table's name in front, as memory.v0; docs/CONSTRAINTS.md
has them all, docs/FORMATS.md the file. VALUE is a number N below p = 2^64 - 2^32 + 1, or -N, which stands for p - N. The cells are
written in their order, so of one that is named twice the later value stands. A cell that has its value already is told.
"""
import re
import struct
import sys

from files import run, table_in
from rpo import P
from tables import COLUMNS, counts_in, place_of


def row_of(word):
    if not re.fullmatch("[0-9]+", word):
        sys.exit(f"{word} is no row: rows are numbers, from 0 on")
    return int(word)


def column_of(word):
    """The table and the number of a column."""
    table, name = word.split(".", 1) if "." in word else ("main", word)
    columns = COLUMNS.get(table, [])
    if re.fullmatch("[0-9]+", name) and int(name) < len(columns):
        return table, int(name)
    if name not in columns:
        sys.exit(f"there is no column {word}; the tables are {' '.join(COLUMNS)}, the columns of {table} {' '.join(columns) or 'none'}")
    return table, columns.index(name)


def value_of(word):
    """The element that is meant."""
    if not re.fullmatch("-?[0-9]+", word) or abs(int(word)) >= P:
        sys.exit(f"{word} is no value: values are N, or -N for p - N, with N below p = {P}")
    return int(word) % P


def forge(content, row, word, value):
    """Writes a value to one cell of the bytes of a table file."""
    table, column = column_of(word)
    rows = dict(zip(COLUMNS, counts_in(content)))[table]
    if row >= rows:
        sys.exit(f"the table {table} has rows 0 to {rows - 1}" if rows else f"the table {table} has no rows")
    place = place_of(content, table, row, column)
    if struct.unpack_from("<Q", content, place)[0] == value:
        print(f"{word} of row {row} is {value} already", file=sys.stderr)
    struct.pack_into("<Q", content, place, value)


def main():
    words = sys.argv[1:]
    if len(words) < 5 or len(words) % 3 != 2:
        print("usage: forge.py TABLE ROW COLUMN VALUE [ROW COLUMN VALUE ..] FORGED", file=sys.stderr)
        sys.exit(2)
    content = bytearray(table_in(words[0]))
    for place in range(1, len(words) - 1, 3):
        row, word, value = words[place:place + 3]
        forge(content, row_of(row), word, value_of(value))
    with open(words[-1], "wb") as file:
        file.write(content)


run(main)
