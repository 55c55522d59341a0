"""Random Merkle paths: sources that walk them, of which most are the program that `member` has in mind, and inputs for them."""
import os
import sys

from programs import element

sys.path.insert(0, os.path.join(os.path.dirname(os.path.abspath(__file__)), "..", "..", "examples", "merkle"))
import tree

MOST_DEPTH = 64


def depth(choice):
    """How many steps a path has."""
    return choice.choice([1, 2, 3, MOST_DEPTH, choice.randint(1, MOST_DEPTH), choice.randint(1, 16), choice.randint(1, 16)])


def source(choice, steps):
    """The source of a program that walks so many steps: the one that `member` knows, another text of it, or another program."""
    kind, step = choice.randrange(8), "proc.step padw adv_loadw adv_push.1 cswapw hmerge end"
    if kind == 0:
        return f"{step} begin repeat.{steps} exec.step end assert_eqw end"
    if kind == 1:
        more = choice.choice(["swap swap", "push.1 drop", "exec.u64_eq", "call.u64_eq"])
        return f"{step} begin repeat.{steps} exec.step end assert_eqw {more} end"
    return tree.program_of(steps)


def inputs(choice, params, steps):
    """The inputs of a path of so many steps. One in eight has a step or an end that is another one."""
    constants = [int(line) for line in params.split()]
    is_zero = choice.randrange(4) == 0
    leaf, *siblings = ([0 if is_zero else element(choice) for _ in range(4)] for _ in range(steps + 1))
    path = [(sibling, choice.randrange(2)) for sibling in siblings]
    made = tree.inputs_of(leaf, tree.root_of(constants, leaf, path), path)
    if choice.randrange(8) == 0:
        cells = made[choice.choice(["stack", "advice"])]
        cells[choice.randrange(len(cells))] = choice.choice([1, element(choice)])
    stack = made["stack"]
    if choice.randrange(3) == 0:
        stack += [element(choice) for _ in range(choice.choice([1, 8, 9, 40]))]
    while stack and stack[-1] == 0 and choice.randrange(16):
        stack.pop()
    if choice.randrange(4) == 0:
        made["advice"].append(element(choice))
    return tree.text_of(made)
