"""Table files (docs/FORMATS.md) by the names of their tables and columns, for the scripts beside this file."""
import json
import os
import struct

HEAD = 36
MAGIC = b"MDTB"
# The versions that are read, and the one that is written.
VERSIONS = (1, 2)
VERSION = 2

with open(os.path.join(os.path.dirname(os.path.abspath(__file__)), "schema.json"), encoding="utf-8") as schema:
    COLUMNS = {table["name"]: table["columns"] for table in json.load(schema)["tables"]}
WIDTHS = [len(columns) for columns in COLUMNS.values()]


def counts_in(content):
    """How many rows each table has, in their order."""
    return struct.unpack_from("<7I", content, 8)


def cells_in(content):
    """How many cells all tables have together."""
    return sum(width * count for width, count in zip(WIDTHS, counts_in(content)))


def tables_in(path):
    """The rows of each table of a file, in their order."""
    with open(path, "rb") as file:
        return tables_of(file.read())


def tables_of(content):
    """The rows of each table of the bytes of a table file, in their order."""
    tables, place = [], HEAD
    for count, width in zip(counts_in(content), WIDTHS):
        tables.append([struct.unpack_from(f"<{width}Q", content, place + 8 * width * i) for i in range(count)])
        place += 8 * width * count
    return tables


def cell_at(content, cell):
    """The table, the row and the column's name of a cell by its number in the file, counted from 0."""
    for (table, columns), count in zip(COLUMNS.items(), counts_in(content)):
        if cell < len(columns) * count:
            return table, cell // len(columns), columns[cell % len(columns)]
        cell -= len(columns) * count
    raise IndexError(cell)


def place_of(content, table, row, column):
    """The byte at which a cell lies."""
    names = list(COLUMNS)
    before = sum(width * count for name, width, count in zip(names, WIDTHS, counts_in(content)) if names.index(name) < names.index(table))
    return HEAD + 8 * (before + len(COLUMNS[table]) * row + column)


def written(path, tables):
    """Writes the rows of the seven tables as a table file."""
    with open(path, "wb") as file:
        file.write(MAGIC + struct.pack("<8I", VERSION, *(len(table) for table in tables)))
        for table in tables:
            for row in table:
                file.write(struct.pack(f"<{len(row)}Q", *row))
