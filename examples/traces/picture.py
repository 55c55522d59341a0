#!/usr/bin/env python3
"""Draws a run, one line a cycle, from what `miden_show show` prints of its table file:

    miden_show show TABLE | picture.py >PICTURE

PICTURE is an SVG file. A line has the clock, a strip for each block that is open, the operation in the colour of its class, a bar as
long as the stack is deep above the sixteenth cell, and an M where the row looks a word of memory up, an H where it looks hashes up.
All of it follows from the lines that begin with `clk`: blocks open and close by their operations, and which operations look up what is
said in docs/CONSTRAINTS.md, "Buses". Nothing else is read, and nothing is checked. It suits runs of some hundreds of cycles.
"""
import re
import sys

from files import run

ROW = re.compile(r"clk (\d+) (?:(\?) (\d+)|(\w+)) depth (\d+) stack \d+ \d+ \d+ \d+ addr \d+")

# The colours of blocks, by the operation that starts one, and of the classes of operations; those that no class names only move cells,
# copy them or push one.
BLOCKS = {"JOIN": "#c9ced6", "SPLIT": "#e8b3c4", "LOOP": "#f3cf8e", "SPAN": "#dfe9f7", "CALL": "#a9d8b8", "SYSCALL": "#79b791", "DYN": "#b9a2e3"}
CLASSES = [
    ("blocks", "#d3d7dd", "JOIN SPLIT LOOP SPAN CALL SYSCALL DYN END REPEAT RESPAN HALT"),
    ("memory", "#f0a35e", "MLOAD MLOADW MSTORE MSTOREW"),
    ("frame", "#c7b58a", "FMPADD FMPUPDATE CALLER"),
    ("advice", "#f2df6b", "ADVPOP ADVPOPW"),
    ("hash", "#b98be0", "HPERM"),
    ("field", "#8fd19e", "EQZ NEG INV INCR NOT ADD MUL AND OR EQ ASSERT"),
    ("32 bits", "#5fbfae", "U32SPLIT U32ADD U32SUB U32MUL U32DIV U32ASSERT2 U32ADD3 U32MADD U32AND U32XOR"),
    ("nothing", "#f4f4f4", "NOOP"),
    ("stack", "#a8c8f0", ""),
]
OPENS = set(BLOCKS)
LOOKS_UP = {
    "M": {"MLOAD", "MLOADW", "MSTORE", "MSTOREW"},
    "H": OPENS | {"END", "RESPAN", "HPERM"},
}

PANELS, PANEL, HEIGHT, TOP = 4, 240, 11, 52
STRIPS, STRIP, BOX, BAR = 30, 5, 54, 54
# As many strips and as long a bar as a panel has room for.
MOST_OPEN = 8


def rows_in(lines):
    """The clock, the operation and the depth of each row that is told."""
    told = (ROW.fullmatch(line.strip()) for line in lines if line.startswith("clk"))
    return [(row[1], row[4] or f"? {row[3]}", int(row[5])) for row in told if row]


def class_of(name):
    """The place of an operation's class; the last one has all that no list names."""
    return next((place for place, (_, _, names) in enumerate(CLASSES) if name in names.split()), len(CLASSES) - 1)


def blocks_in(rows):
    """Each block as its kind, how many were open before it, and its first and last row."""
    opened, blocks = [], []
    for number, (_, name, _) in enumerate(rows):
        if name in OPENS:
            opened.append((name, number))
        elif name == "END" and opened:
            kind, first = opened.pop()
            blocks.append((kind, len(opened), first, number))
    blocks += [(kind, level, first, len(rows) - 1) for level, (kind, first) in enumerate(opened)]
    return sorted(blocks, key=lambda block: block[2])


def rect(kind, x, y, width, height):
    return f'<rect class="{kind}" x="{x}" y="{y}" width="{width}" height="{height}"/>'


def text(kind, x, y, said):
    return f'<text class="{kind}" x="{x}" y="{y}">{said}</text>'


class Picture:
    """The rows in panels, one beside the other."""

    def __init__(self, rows):
        self.rows = rows
        self.lines = max(-(-len(rows) // PANELS), 1)
        self.deepest = max([depth for _, _, depth in rows] + [17])

    def place(self, number):
        """The left and the upper end of a row's line."""
        return PANEL * (number // self.lines), TOP + HEIGHT * (number % self.lines)

    def strips(self, block):
        """A block's strip, in each panel that it reaches into."""
        kind, level, first, last = block
        while level < MOST_OPEN and first <= last:
            end = min(last, first - first % self.lines + self.lines - 1)
            x, y = self.place(first)
            yield rect(kind.lower(), x + STRIPS + STRIP * level, y, STRIP - 1, HEIGHT * (end - first + 1) - 1)
            first = end + 1

    def line(self, number):
        clock, name, depth = self.rows[number]
        x, y = self.place(number)
        box = x + STRIPS + STRIP * MOST_OPEN + 2
        bar = box + BOX + 2
        yield text("k", x + STRIPS - 4, y + 8, clock)
        yield rect(f"c{class_of(name)}", box, y, BOX, HEIGHT - 1) + text("o", box + 2, y + 8, name)
        if depth > 16:
            width = BAR * (min(depth, 16 + self.deepest) - 16) // (self.deepest - 16)
            yield rect("depth", bar, y + 2, width, HEIGHT - 5)
        yield text("d", bar + BAR + 14, y + 8, depth)
        for place, (mark, names) in enumerate(LOOKS_UP.items()):
            if name in names:
                yield text(mark.lower(), bar + BAR + 19 + 8 * place, y + 8, mark)

    def legend(self):
        for place, (name, _, _) in enumerate(CLASSES):
            yield rect(f"c{place}", 8 + 66 * place, 8, 10, 10) + text("o", 21 + 66 * place, 16, name)
        for place, kind in enumerate(BLOCKS):
            yield rect(kind.lower(), 8 + 66 * place, 26, 10, 10) + text("o", 21 + 66 * place, 34, f"in {kind}")
        x = 8 + 66 * max(len(CLASSES), len(BLOCKS))
        yield rect("depth", x, 10, 20, 6) + text("o", x + 24, 16, f"depth, 16 to {self.deepest}")
        yield text("m", x, 34, "M") + text("o", x + 10, 34, "memory") + text("h", x + 60, 34, "H") + text("o", x + 70, 34, "hashes")

    def drawn(self):
        styles = [f".{kind.lower()}{{fill:{colour}}}" for kind, colour in BLOCKS.items()]
        styles += [f".c{place}{{fill:{colour}}}" for place, (_, colour, _) in enumerate(CLASSES)]
        styles += ["text{font:8px monospace}", ".k,.d{fill:#777;text-anchor:end}", ".depth{fill:#6b7a90}",
                   ".m{fill:#b85c00;font-weight:bold}", ".h{fill:#6a2fb0;font-weight:bold}"]
        width, height = PANEL * PANELS, TOP + HEIGHT * self.lines + 8
        yield f'<svg xmlns="http://www.w3.org/2000/svg" width="{width}" height="{height}" viewBox="0 0 {width} {height}">'
        yield f"<title>A run, one line a cycle</title><style>{''.join(styles)}</style>"
        yield f'<rect width="{width}" height="{height}" fill="#fff"/>'
        yield from self.legend()
        for block in blocks_in(self.rows):
            yield from self.strips(block)
        for number in range(len(self.rows)):
            yield from self.line(number)
        yield "</svg>"


def main():
    if sys.argv[1:]:
        print("usage: picture.py <SHOWN >PICTURE", file=sys.stderr)
        sys.exit(2)
    sys.stdin.reconfigure(errors="replace")
    rows = rows_in(sys.stdin)
    if not rows:
        sys.exit("no line of a row was told; give what `miden_show show TABLE` prints")
    print("\n".join(Picture(rows).drawn()))


run(main)
