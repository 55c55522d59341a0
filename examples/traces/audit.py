#!/usr/bin/env python3
"""Reads evidence for itself, against the table file and the statement that it was written for:

    audit.py STATUS PARAMS TABLE STATEMENT EVIDENCE

prints `consistent`, or says what is not. STATUS is that of the `check` which wrote the evidence, as `$?` behind it: where it is not 0
nothing was written, and a file of that name is evidence of another table. Of a run it computes the digest of the tree, and compares it
with the statement's, and the cycles with the rows of the main table; where the tree is one span, with the cycles of its batches, too;
where it is that of a source, no block of it may be opaque. Of a pair, or a clash of the file, it reads the two hashes in the table: their
inputs differ, and their digests do not; of a clash with a block of the source, the one hash that the table has. It runs nothing of the
program; docs/FORMATS.md has the files.
"""
import re
import sys

from files import params_in, run, statement_in, table_in, text_in
from rpo import digest_of, word_text
from tables import tables_of

DOMAINS = {"join": 70, "split": 71, "loop": 72, "call": 74, "syscall": 75, "dyn": 80}
PUSH = 69
# Blocks nest up to 1,024 deep, and each is read by a call of its own.
DEEPEST = 5000


class NoEvidence(Exception):
    """A line that evidence does not have there."""


class Lines:
    """The lines of evidence, one after the other."""

    def __init__(self, text):
        self.lines, self.number = text.splitlines(), 0

    def has_more(self):
        return self.number < len(self.lines)

    def words(self, form):
        """The words of the next line, which is to be of this form."""
        line = self.lines[self.number] if self.has_more() else None
        self.number += 1
        if line is None or not re.fullmatch(form, line):
            raise NoEvidence(f"line {self.number} is {'missing' if line is None else 'none of evidence'}")
        return line.split()


def word_in(text):
    return [int(text[16 * i:16 * i + 16], 16) for i in range(4)]


def tree_in(lines):
    """A block: its kind, and its word, its batches or its children."""
    kind, *rest = lines.words("opaque [0-9a-f]{64}|(?:span|dyn) [0-9]+|join|split|loop|call|syscall")
    if kind == "opaque":
        return kind, word_in(rest[0])
    if kind == "span":
        return kind, [[int(element) for element in lines.words("batch(?: [0-9]+){8}")[1:]] for _ in range(int(rest[0]))]
    if kind == "dyn":
        return kind, [tree_in(lines) for _ in range(int(rest[0]))]
    return kind, [tree_in(lines) for _ in range(2 if kind in ("join", "split") else 1)]


def digest_in(constants, tree):
    kind, parts = tree
    if kind == "opaque":
        return parts
    if kind == "span":
        return digest_of(constants, 0, parts)
    if kind == "dyn":
        return digest_of(constants, DOMAINS[kind], [[0] * 8])
    words = [digest_in(constants, part) for part in parts]
    block = words[0] + (words[1] if len(words) == 2 else [0] * 4)
    return digest_of(constants, DOMAINS[kind], [block])


def dynamic_faults(constants, tree):
    """That no dynamic block has two targets of one digest."""
    kind, parts = tree
    if kind in ("opaque", "span"):
        return
    for part in parts:
        yield from dynamic_faults(constants, part)
    if kind == "dyn" and len({word_text(digest_in(constants, part)) for part in parts}) < len(parts):
        yield "a dynamic block has two targets of one digest"


def has_opaque(tree):
    kind, parts = tree
    return kind == "opaque" or kind != "span" and any(map(has_opaque, parts))


def operations_in(batch):
    """How many operations a batch has: the digits of its groups, and a NOOP behind a PUSH that ends one."""
    last = max([i for i, element in enumerate(batch) if element] or [0])
    in_use, place, count = min(n for n in (1, 2, 4, 8) if last < n), 0, 0
    while place < in_use:
        number, place, first = batch[place], place + 1, True
        while number or first:
            digit, number, first = number % 128, number // 128, False
            count += 1
            if digit == PUSH:
                place += 1
                count += number == 0
    return count


def run_faults(constants, tables, statement, lines, is_whole):
    cycles = int(lines.words("cycles [0-9]+")[1])
    lines.words("tape(?: [0-9]+)*")
    tree = tree_in(lines)
    if lines.has_more():
        yield "lines behind the tree"
    if is_whole and has_opaque(tree):
        yield "a block of the source is opaque"
    if word_text(digest_in(constants, tree)) != str(statement["digest"]).lower():
        yield "the tree has another digest"
    yield from dynamic_faults(constants, tree)
    if cycles + 1 != len(tables[0]):
        yield "the table has other rows"
    if tree[0] == "span" and cycles != sum(map(operations_in, tree[1])) + len(tree[1]) + 1:
        yield "the span has other cycles"


def begins_at(table, place):
    """Whether a hash begins at a place of the hasher's table, counted from 1."""
    return place % 8 == 1 and place <= len(table) and not any(table[place - 1][:2])


def hash_at(table, place):
    """The first capacity and the blocks of the hash that begins at a place, counted from 1, and its digest."""
    row, blocks = place - 1, []
    start = table[row][3:7]
    while True:
        blocks.append(table[row][7:15])
        end = table[row + 7]
        if not end[2] or row + 8 >= len(table):
            return (start, blocks), end[7:11]
        row += 8


def node_faults(tables, address):
    if not begins_at(tables[2], address):
        yield "no hash begins there"


def pair_faults(tables, first, second):
    if not begins_at(tables[2], first) or not begins_at(tables[2], second):
        yield "no hash begins there"
        return
    (one, of_one), (other, of_other) = hash_at(tables[2], first), hash_at(tables[2], second)
    if first >= second or one == other:
        yield "the hashes have one input"
    if of_one != of_other:
        yield "the hashes have two digests"


def faults(params, table, statement, evidence):
    """What is not as it should be; a file that is missing or not of its form ends the script."""
    constants, tables, said = params_in(params), tables_of(table_in(table)), statement_in(statement)
    lines = Lines(text_in(evidence))
    sys.setrecursionlimit(max(sys.getrecursionlimit(), DEEPEST))
    try:
        kind, *places = lines.words("run|ran|pair [0-9]+ [0-9]+|clash file [0-9]+ (?:file|node) [0-9]+")
        numbers = [int(place) for place in places if place.isdecimal()]
        if kind == "pair" or "file" in places[1:]:
            yield from pair_faults(tables, *numbers)
        elif kind == "clash":
            yield from node_faults(tables, numbers[0])
        else:
            yield from run_faults(constants, tables, said, lines, kind == "ran")
    except NoEvidence as error:
        sys.exit(f"{evidence}: {error}")


def main():
    words = sys.argv[1:]
    if len(words) != 5 or not re.fullmatch("[0-9]+", words[0]):
        print("usage: audit.py STATUS PARAMS TABLE STATEMENT EVIDENCE", file=sys.stderr)
        sys.exit(2)
    if int(words[0]) != 0:
        sys.exit(f"the check ended with status {words[0]} and wrote no evidence")
    found = list(faults(*words[1:]))
    print("\n".join(found) or "consistent")
    sys.exit(1 if found else 0)


if __name__ == "__main__":
    run(main)
