"""What docs/CONSTRAINTS.md says of tables, constraints and buses, for machines: examples/traces/schema.json. `.ci/pages.py` compares
the two, and `pages.py --write` writes the file."""
from __future__ import annotations

import json
import re
from collections.abc import Iterator
from pathlib import Path

ROOT = Path(__file__).resolve().parent.parent
PAGE, SCHEMA = "docs/CONSTRAINTS.md", "examples/traces/schema.json"

TABLE_HEAD = re.compile(r"\*\*(\w+)(?:\*\*|\.)")
NAMED = re.compile(r"`(\w+)`|`([a-z]+)(\d+)\.\.[a-z]+(\d+)`")
RANGE = re.compile(r"(\d+)(?:\.\.(\d+))?")
PLACE = re.compile(r"([EPFL])(?:, k (<|=) (\d+))?$")


def rows_below(lines: list[str], header: str) -> Iterator[tuple[int, list[str]]]:
    """The cells of each row of the tables whose first header cell is this, with the line of the row."""
    first = ""
    for number, line in enumerate(lines):
        if not line.startswith("|"):
            first = ""
            continue
        cells = [cell.strip() for cell in re.split(r"(?<!\\)\|", line)[1:-1]]
        if first == header and cells[0].strip(":-"):
            yield number, cells
        first = first or cells[0]


def table_at(lines: list[str], number: int) -> str:
    """The table that a line speaks of: the last one that stands in bold in front of it, the main table where none does."""
    for line in reversed(lines[:number]):
        found = TABLE_HEAD.match(line)
        if found:
            return found[1]
        if line.startswith("## "):
            break
    return "main"


def columns_in(cell: str) -> list[str]:
    """The names in a cell, where `f0..f3` stands for four."""
    names: list[str] = []
    for name, family, first, last in NAMED.findall(cell):
        names += [name] if name else [f"{family}{j}" for j in range(int(first), int(last) + 1)]
    return names


def constraints_in(numbers: str, places: str) -> Iterator[dict]:
    """The constraints of a row: ranges of numbers with where they hold, parted by `;` where that differs."""
    groups, marks = numbers.split(";"), places.split(";")
    for group, mark in zip(groups, marks * len(groups) if len(marks) == 1 else marks, strict=True):
        kind, compared, k = PLACE.match(mark.strip()).groups()
        for first, last in RANGE.findall(group):
            entry = {"first": int(first), "last": int(last or first), "where": kind}
            yield entry | ({"k": f"{compared} {k}"} if compared else {})


def schema_as_said() -> dict:
    """The schema as the page has it: its columns' numbers are their places, and constraints are numbered without a gap."""
    lines = (ROOT / PAGE).read_text(encoding="utf-8").splitlines()
    tables: dict[str, dict] = {}
    for number, (names, places, _) in rows_below(lines, "columns"):
        table = tables.setdefault(table_at(lines, number), {"columns": [], "constraints": []})
        said = [int(first) for first, _ in RANGE.findall(places)]
        if said[:1] != [len(table["columns"])]:
            raise ValueError(f"{PAGE}:{number + 1}: the first column's number is {len(table['columns'])}")
        table["columns"] += columns_in(names)
    for number, (numbers, places, *_) in rows_below(lines, "number"):
        tables[table_at(lines, number)]["constraints"] += constraints_in(numbers, places)
    for table in tables.values():
        for before, entry in zip([{"last": 0}, *table["constraints"]], table["constraints"]):
            if entry["first"] != before["last"] + 1:
                raise ValueError(f"{PAGE}: constraint {before['last'] + 1} is missing in front of {entry['first']}")
    buses = [{"name": bus, "fields": columns_in(fields)} for _, (bus, fields) in rows_below(lines, "fields of")]
    return {"tables": [{"name": name} | table for name, table in tables.items()], "buses": buses}


def listed(entries: list[dict], margin: str) -> str:
    """A list with an entry a line."""
    return "[" + ",".join(f"\n{margin}{json.dumps(entry)}" for entry in entries) + "]"


def text_as_said() -> str:
    said = schema_as_said()
    tables = ",".join(
        f'\n  {{"name": "{table["name"]}", "columns": {json.dumps(table["columns"])},\n   "constraints": '
        f'{listed(table["constraints"], "    ")}}}' for table in said["tables"])
    text = f'{{"tables": [{tables}],\n "buses": {listed(said["buses"], "  ")}}}\n'
    if json.loads(text) != said:
        raise ValueError(f"{SCHEMA}: the text does not read as what was meant")
    return text


def schema_findings() -> Iterator[str]:
    """That the file is what the page says."""
    file = ROOT / SCHEMA
    try:
        if not file.exists() or file.read_text(encoding="utf-8") != text_as_said():
            yield f"{SCHEMA}:1: this is not what {PAGE} says; `.ci/pages.py --write` makes it so"
    except ValueError as error:
        yield str(error)


def write() -> None:
    (ROOT / SCHEMA).write_text(text_as_said(), encoding="utf-8")
