"""Compares two programs on random cases, for `differential.sh`:

    main.py PROGRAM OTHER TOOLS TOP CASES SEED [KIND ..]

TOOLS is a folder with the tool `collisions`, if there is one. TOP is the top of the repository, whose examples have the parameters and a
small trace. The kinds are those of cases.py by their names, all where none is named.
"""
import os
import random
import sys

from cases import KINDS
from sides import Sides


def common_files(top):
    """The files that cases share."""
    def read(name):
        with open(os.path.join(top, "examples", name), "rb") as file:
            return file.read()

    return {
        "params": read("params/derived"), "zeros": read("params/zeros"),
        "sum": {"table": read("traces/sum.table"), "statement": read("traces/sum.json")},
    }


def order_of(names):
    """The kinds of these names, or all, each as often as it has cases."""
    known = [kind.__name__ for kind, _ in KINDS]
    if not set(names) <= set(known):
        print(f"the kinds of cases are {' '.join(known)}", file=sys.stderr)
        sys.exit(2)
    return [kind for kind, count in KINDS if not names or kind.__name__ in names for _ in range(count)]


def main():
    program, other, tools, top, cases, seed, *names = sys.argv[1:]
    order = order_of(names)
    sides = Sides({"miden": os.path.abspath(program), "other": os.path.abspath(other)}, tools)
    common = common_files(top)
    random.Random(seed).shuffle(order)
    for number in range(int(cases)):
        kind = order[number % len(order)]
        kind(sides, random.Random(f"{seed} {number}"), common)
        sides.count(kind)
    sides.summary()
    print(f"{cases} cases of the seed {seed}: {sides.differences or 'no'} differences")
    sys.exit(1 if sides.differences else 0)


main()
