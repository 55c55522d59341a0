"""What docs/CONSTRAINTS.md says of columns, constraints and buses, in the program that tells of traces: `crates/show_constraints` has the
constraints in words, their parts and their terms, the columns and the buses in words, and `crates/show_text` the sides of constraints and the
fields of tuples. `.ci/pages.py` compares them, and `pages.py --write` writes the constraints in words, as code and as a definition."""
from __future__ import annotations

import re
from collections.abc import Iterator

import schema

CODE, TELLING = "crates/show_constraints/src", "crates/show_text/src"
WORDS, COLUMNS, BUSES = f"{CODE}/words.rt", f"{CODE}/columns.rt", f"{CODE}/bus_words.rt"
PARTS, TERMS = f"{CODE}/parts.rt", f"{CODE}/terms.rt"
SIDES, FIELDS = f"{TELLING}/sides.rt", f"{TELLING}/explain.rt"
DEFINED = "crates/show_constraints/specs/Words.antt"
BEGIN, END = " What docs/CONSTRAINTS.md says.\n", " The end of what it says.\n"

STRING = r'"((?:[^"\\]|\\.)*)"'
TEXT = re.compile(STRING, re.DOTALL)
LIST = re.compile(r"const (\w+): \[[^=]*; \d+\] =\s*\[((?:" + STRING + r'|[^"])*?)\];\n', re.DOTALL)
ROW = re.compile(r"\(\s*(\d+),\s*" + STRING + r",?\s*\)", re.DOTALL)
PART = re.compile(r"first: (\d+),\s*last: (\d+),\s*pieces: &\[((?:" + STRING + r'|[^"])*?)\],\s*index: (\d+),', re.DOTALL)
TERM = re.compile(r"number: (\d+),\s*ops: &\[([^\]]*)\],\s*text: " + STRING)
FLAG = re.compile(r"\[([A-Z]\w*)\]")
SIDE = re.compile(r"\((\d+), (\d+), Cell::")
BUS = re.compile(r"Bus::(\w+) => (?:\{\s*)?" + STRING, re.DOTALL)
INDEX = re.compile(r"\b[jq] = (\d+)\.\.(\d+)")


def wrapped(text: str, width: int, join: str) -> str:
    """A text as so many letters a line, with this between two lines."""
    lines, line = [], ""
    for word in re.findall(r"\S+ ?", text.replace("\\", "\\\\").replace('"', '\\"')):
        if len(line) + len(word) > width:
            lines, line = [*lines, line], ""
        line += word
    return join.join([*lines, line])


def read(text: str) -> str:
    """The text of what stands between quotes: a backslash at the end of a line takes the margin of the next one away."""
    return re.sub(r"\\(.)", r"\1", re.sub(r"\\\n\s*", "", text))


def text_of(name: str) -> str:
    return (schema.ROOT / name).read_text(encoding="utf-8")


def lists_in(name: str) -> dict[str, str]:
    """What stands in the lists of a file, by their names."""
    return {found[1].lower(): found[2] for found in LIST.finditer(text_of(name))}


def texts_in(name: str) -> dict[str, list[str]]:
    """The lists of texts of a file, by their names."""
    return {table: [read(text) for text in TEXT.findall(texts)] for table, texts in lists_in(name).items()}


def rows_as_said() -> dict[str, list[tuple[list[tuple[int, int]], str, str]]]:
    """By table, the ranges of numbers of each row of the page, what must be 0, and the row as one line."""
    lines = text_of(schema.PAGE).splitlines()
    tables: dict[str, list[tuple[list[tuple[int, int]], str, str]]] = {}
    for number, (numbers, places, zero, without) in schema.rows_below(lines, "number"):
        ranges = [(entry["first"], entry["last"]) for entry in schema.constraints_in(numbers, places)]
        text = f"{numbers} {places} must be 0: {zero}; without it: {without}"
        tables.setdefault(schema.table_at(lines, number), []).append((ranges, zero, text))
    return tables


def constraints_as_said() -> dict[str, list[tuple[int, str]]]:
    return {name: [(ranges[-1][1], text) for ranges, _, text in rows] for name, rows in rows_as_said().items()}


def constraints_in_code() -> dict[str, list[tuple[int, str]]]:
    return {name: [(int(last), read(text)) for last, text in ROW.findall(rows)] for name, rows in lists_in(WORDS).items()}


def buses_as_said() -> dict[str, str]:
    """By bus, its rows of the page as one line: what it is for, and what a false run could do without it."""
    rows = [cells for _, cells in schema.rows_below(text_of(schema.PAGE).splitlines(), "bus")]
    harms = {cells[0]: cells[1] for cells in rows if len(cells) == 2}
    return {bus: f"bus {bus} must be even: {use[-1]}; without it a false run could {harms[bus]}" for bus, *use in rows if len(use) == 3}


def buses_in_code() -> dict[str, str]:
    return {bus.lower(): read(text) for bus, text in BUS.findall(text_of(BUSES))}


def part_findings(table: str, rows: list[tuple[list[tuple[int, int]], str, str]], parts: str) -> Iterator[str]:
    """That each part, with its index as the page writes it, is what the page says of its numbers."""
    said = {numbers: (text, zero) for ranges, zero, _ in rows for numbers, text in zip(ranges, zero.split("; "))}
    for first, last, texts, _, index in PART.findall(parts):
        pieces = [read(text) for text in TEXT.findall(texts)]
        text, zero = said.get((int(first), int(last)), ("", ""))
        indices = INDEX.findall(zero)
        if not any(letter.join(pieces) in text for letter in ("_j", "_q", "j")):
            yield f"{PARTS}:1: {schema.PAGE} does not say this of {table} {first} to {last}: {pieces}"
        elif len(pieces) > 1 and indices and (index, str(int(index) + int(last) - int(first))) not in indices:
            yield f"{PARTS}:1: {schema.PAGE} has another index at {table} {first} than {index}"


def terms_in_code() -> list[tuple[int, list[str], str]]:
    """The number of each term, its operations as the page writes them, and its text."""
    return [(int(number), [op[4:].upper() for op in re.findall(r"Op::\w+", ops)], read(text)) for number, ops, text in TERM.findall(text_of(TERMS))]


def zeros_as_said() -> dict[int, str]:
    """What must be 0 at each constraint of the main table: of a row with several numbers, at each its own."""
    zeros = {}
    for ranges, zero, _ in rows_as_said()["main"]:
        parts = zero.split("; ")
        for (first, last), part in zip(ranges, parts if len(parts) == len(ranges) else [zero] * len(ranges)):
            zeros.update(dict.fromkeys(range(first, last + 1), part))
    return zeros


def term_findings() -> Iterator[str]:
    """That each term is what the page says of its operations: at 119 its T, elsewhere what their flags stand in front of. And that a number
    which has terms has one for each operation of its sum, or a side."""
    tops = [cells for _, cells in schema.rows_below(text_of(schema.PAGE).splitlines(), "operation") if len(cells) == 2]
    zeros, sides = zeros_as_said(), {int(first) for first, *_ in SIDE.findall(lists_in(SIDES)["main"])}
    told: dict[int, set[str]] = {}
    for number, ops, text in terms_in_code():
        flags = " + ".join(f"[{op}]" for op in ops)
        front = flags if len(ops) == 1 else f"({flags})"
        told.setdefault(number, set()).update(ops)
        pieces = "|".join(re.escape(f"{front}{piece}") for piece in (text, f" {text}", f"({text})"))
        is_said = [ops[0], text] in tops if number == 119 else re.search(rf"(?:{pieces})(?= \+ [\[(T]|$)", zeros[number])
        if not is_said:
            yield f"{TERMS}:1: {schema.PAGE} does not say this of {number}: {flags} {text}"
    for number, ops in told.items():
        if number not in sides | {119} and set(FLAG.findall(zeros[number])) - ops:
            yield f"{TERMS}:1: nothing is told of {number} and {min(set(FLAG.findall(zeros[number])) - ops)}"


def told_findings() -> Iterator[str]:
    """That parts are the page's, that sides have numbers of the page, and that each number has one of them, or terms, where a row has
    several."""
    parts, sides = lists_in(PARTS), lists_in(SIDES)
    for table, rows in rows_as_said().items():
        yield from part_findings(table, rows, parts.get(table, ""))
        ranges = [(int(first), int(last)) for first, last, *_ in PART.findall(parts.get(table, "")) + SIDE.findall(sides.get(table, ""))]
        ranges += [(number, number) for number, *_ in terms_in_code() if table == "main"]
        told = {number for first, last in ranges for number in range(first, last + 1)}
        wanted = {number for ranges, *_ in rows if ranges[0][0] < ranges[-1][1] for number in range(ranges[0][0], ranges[-1][1] + 1)}
        if told - set(range(1, rows[-1][0][-1][1] + 1)):
            yield f"{SIDES}:1: {schema.PAGE} has no constraint {max(told)} of {table}"
        if wanted - told:
            yield f"{PARTS}:1: nothing is told of {table} {min(wanted - told)}, which stands in a row with others"


def words_findings() -> Iterator[str]:
    """That the code says what the page says."""
    said = schema.schema_as_said()
    if constraints_in_code() != constraints_as_said():
        yield f"{WORDS}:1: this is not what {schema.PAGE} says; `.ci/pages.py --write` and `rt fmt` make it so"
    if texts_in(COLUMNS) != {table["name"]: table["columns"] for table in said["tables"]}:
        yield f"{COLUMNS}:1: these are not the columns of {schema.PAGE}"
    if texts_in(FIELDS) != {bus["name"]: bus["fields"] for bus in said["buses"]}:
        yield f"{FIELDS}:1: these are not the fields of {schema.PAGE}"
    if buses_in_code() != buses_as_said():
        yield f"{BUSES}:1: this is not what {schema.PAGE} says of buses"
    yield from told_findings()
    yield from term_findings()


def code_text(name: str, rows: list[tuple[int, str]]) -> str:
    texts = "".join("    (\n        {},\n        \"{}\",\n    ),\n".format(last, wrapped(text, 84, "\\\n         ")) for last, text in rows)
    return f"const {name.upper()}: [(u16, &str); {len(rows)}] = [\n{texts}];\n"


def defined_text(name: str, rows: list[tuple[int, str]]) -> str:
    texts = ['row {} (codes "{}")'.format(last, wrapped(text, 128, '"\n    ++ codes "')) for last, text in rows]
    return f"rows_of table.{name.capitalize()} =\n    " + "\n    ∷ ".join([*texts, "[]"]) + "\n"


def write_between(name: str, comment: str, text: str) -> None:
    """Writes a text between the two lines of a file that mark what the page says."""
    before, behind = text_of(name).split(f"{comment}{BEGIN}")
    behind = behind.split(f"{comment}{END}")[1]
    (schema.ROOT / name).write_text(f"{before}{comment}{BEGIN}{text}{comment}{END}{behind}", encoding="utf-8")


def write() -> None:
    said = constraints_as_said().items()
    write_between(WORDS, "//", "\n".join(code_text(name, rows) for name, rows in said) + "\n")
    write_between(DEFINED, "--", "".join(defined_text(name, rows) for name, rows in said))
