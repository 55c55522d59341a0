#!/usr/bin/env python3
"""Makes a Merkle tree of words, and the inputs of a program that walks one of its paths:

    tree.py PARAMS LEAVES INDEX [INPUTS [SOURCE]]

prints the root of the tree whose leaves stand in LEAVES, the leaf at INDEX, counted from 0, and the path between them: for each level,
from the leaf up, a bit and the sibling. The bit is 0 where the node is the left one of the two. To INPUTS it writes what the program
for that depth is run on, and to SOURCE the program. So

    tree.py ../params/derived leaves 5 leaf5.json path3.masm

PARAMS has the 168 constants of the permutation, a line each. LEAVES has a leaf on each line, as 64 hexadecimal digits, sixteen for each
of its four elements, or as the four elements in decimal with blanks between them. Where the leaves are not a power of two, or there is
but one, words of four zeros stand behind them up to the next power, two at least. INDEX is that of a leaf in the file. A node is the
digest of the block of the two below it, with domain 0. The permutation is that of docs/HASH.md, the files are those of docs/FORMATS.md;
the script uses nothing of the program.
"""
import json
import re
import sys
from pathlib import Path

sys.path.insert(0, str(Path(__file__).resolve().parent.parent / "traces"))
from rpo import P, digest_of, word_text

CONSTANTS = 168
ZEROS = [0] * 4


def lines_in(path):
    try:
        with open(path, encoding="ascii", newline="") as file:
            lines = file.read().split("\n")
    except OSError as error:
        sys.exit(f"{path}: {error.strerror}")
    except UnicodeDecodeError as error:
        sys.exit(f"{path}: byte {error.start} is not ASCII")
    return lines[:-1] if lines[-1] == "" else lines


def constants_in(path):
    """The constants in a file of parameters."""
    lines = lines_in(path)
    if len(lines) != CONSTANTS:
        sys.exit(f"{path}: {len(lines)} lines in place of {CONSTANTS}")
    for number, line in enumerate(lines, 1):
        if not re.fullmatch("0|[1-9][0-9]{0,19}", line) or int(line) >= P:
            sys.exit(f"{path}: line {number}: no decimal number below p")
    return [int(line) for line in lines]


def word_in(line):
    """The word on a line of leaves, if one is there."""
    if re.fullmatch("[0-9A-Fa-f]{64}", line):
        return [int(line[16 * i:16 * i + 16], 16) for i in range(4)]
    if re.fullmatch("[0-9]{1,20}([ \t]+[0-9]{1,20}){3}", line):
        return [int(element) for element in line.split()]
    return None


def leaves_in(path):
    """The words in a file of leaves."""
    leaves = [word_in(line.strip()) for line in lines_in(path)]
    for number, leaf in enumerate(leaves, 1):
        if leaf is None:
            sys.exit(f"{path}: line {number}: neither 64 hexadecimal digits nor four decimal numbers")
        if max(leaf) >= P:
            sys.exit(f"{path}: line {number}: an element is p or more")
    if not leaves:
        sys.exit(f"{path}: no leaves")
    return leaves


def parent(constants, left, right):
    """The node above two nodes."""
    return digest_of(constants, 0, [left + right])


def levels_of(constants, leaves):
    """The nodes of a tree, from the leaves up to the root, which is alone on its level."""
    count = max(2, 1 << (len(leaves) - 1).bit_length())
    levels = [leaves + [ZEROS] * (count - len(leaves))]
    while len(levels[-1]) > 1:
        nodes = levels[-1]
        levels.append([parent(constants, *pair) for pair in zip(nodes[::2], nodes[1::2])])
    return levels


def path_in(levels, index):
    """The steps from a leaf up: siblings, each with the bit that is 0 where the node is the left one."""
    return [(nodes[index >> height ^ 1], index >> height & 1) for height, nodes in enumerate(levels[:-1])]


def root_of(constants, leaf, path):
    """The root to which a path leads from a leaf."""
    for sibling, bit in path:
        leaf = parent(constants, sibling, leaf) if bit else parent(constants, leaf, sibling)
    return leaf


def program_of(depth):
    """The source of the program that walks a path of this depth."""
    return f"begin repeat.{depth} padw adv_loadw adv_push.1 cswapw hmerge end assert_eqw end\n"


def inputs_of(leaf, root, path):
    """What the program starts with: the leaf above the root, each with its last element on top, and on the tape each sibling and its bit."""
    tape = [element for sibling, bit in path for element in sibling + [bit]]
    return {"advice": tape, "stack": leaf[::-1] + root[::-1]}


def text_of(inputs):
    return json.dumps(inputs, separators=(",", ":"))


def write(path, text):
    try:
        with open(path, "w", encoding="ascii") as file:
            file.write(text)
    except OSError as error:
        sys.exit(f"{path}: {error.strerror}")


def main():
    words = sys.argv[1:]
    if not 3 <= len(words) <= 5 or not re.fullmatch("[0-9]{1,20}", words[2]):
        print("usage: tree.py PARAMS LEAVES INDEX [INPUTS [SOURCE]]", file=sys.stderr)
        sys.exit(2)
    constants, leaves, index = constants_in(words[0]), leaves_in(words[1]), int(words[2])
    if index >= len(leaves):
        sys.exit(f"{words[1]}: there are the leaves 0 to {len(leaves) - 1}")
    levels = levels_of(constants, leaves)
    path, [root] = path_in(levels, index), levels[-1]
    print(f"root {word_text(root)}\nleaf {word_text(leaves[index])}")
    for sibling, bit in path:
        print(f"step {bit} {word_text(sibling)}")
    for name, text in zip(words[3:], [text_of(inputs_of(leaves[index], root, path)), program_of(len(path))]):
        write(name, text)


if __name__ == "__main__":
    main()
