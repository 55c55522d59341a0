"""The permutation and the hash of blocks (docs/HASH.md), for the scripts beside this file. They use nothing of the program."""
P = 2**64 - 2**32 + 1
# How many constants the permutation has.
CONSTANTS = 168
FIRST_ROW = [7, 23, 8, 26, 13, 10, 9, 7, 6, 22, 21, 8]
SEVENTH_ROOT = 10540996611094048183


def mixed(x):
    return [sum(FIRST_ROW[(j - i) % 12] * x[j] for j in range(12)) % P for i in range(12)]


def round_of(constants, k, x):
    first, second = constants[24 * k:24 * k + 12], constants[24 * k + 12:24 * k + 24]
    x = [pow(a + c, 7, P) for a, c in zip(mixed(x), first)]
    return [pow((a + c) % P, SEVENTH_ROOT, P) for a, c in zip(mixed(x), second)]


def permutation(constants, state):
    """The state before the permutation and behind each of its seven rounds."""
    states = [state]
    for k in range(7):
        states.append(round_of(constants, k, states[-1]))
    return states


def digest_of(constants, domain, blocks):
    """The digest of blocks of eight elements."""
    state = [0, domain] + [0] * 10
    for block in blocks:
        state = permutation(constants, state[:4] + list(block))[-1]
    return state[4:8]


def word_text(word):
    return "".join(f"{element:016x}" for element in word)
