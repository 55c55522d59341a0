#!/usr/bin/env python3
"""Damages an accepted table file, each time in another way, and has each checked:

    damage_many.py MIDEN PARAMS TABLE STATEMENT [TIMES [SEED]]

MIDEN is the program, as ./miden. TABLE has to be accepted as it is. Of its bytes some are replaced, cut off, taken out, put in or
written over with others of the file. Then each answer has to be that the file is malformed, or a refusal, or `accepted` with evidence
that audit.py finds consistent. It prints how often each came, and ends with 1 at the first that is none of these. The damages are
chosen by SEED, ten thousand where TIMES is missing.
"""
import sys

from files import run
from judging import Change, try_many
from tables import HEAD


def noise(choice, most):
    return bytes(choice.randrange(256) for _ in range(choice.randint(1, most)))


def replaced(content, place, choice):
    """Another byte at a place."""
    return content[:place] + bytes([content[place] ^ choice.randrange(1, 256)]) + content[place + 1:]


def overwritten(content, place, choice):
    """Up to sixteen other bytes from a place on."""
    other = noise(choice, 16)
    return (content[:place] + other + content[place + len(other):])[:len(content)]


def copied(content, place, choice):
    """Bytes of the file, an element to eight, at another place."""
    length, source = 8 * choice.randint(1, 8), choice.randrange(len(content))
    part = content[source:source + length]
    return (content[:place] + part + content[place + len(part):])[:len(content)]


def cut(content, place, _choice):
    """The bytes before a place."""
    return content[:place]


def shortened(content, place, choice):
    """Without an element to eight at a place."""
    return content[:place] + content[place + 8 * choice.randint(1, 8):]


def lengthened(content, place, choice):
    """With up to sixteen more bytes at a place."""
    return content[:place] + noise(choice, 16) + content[place:]


DAMAGES = [replaced, overwritten, copied, cut, shortened, lengthened]


def damaged(content, choice):
    """The bytes of a table file with one damage, of its head in one of eight."""
    place = choice.randrange(HEAD) if choice.randrange(8) == 0 else choice.randrange(len(content))
    return Change(choice.choice(DAMAGES)(content, place, choice))


def main():
    try_many("damage_many.py", sys.argv[1:], damaged, 10000)


run(main)
