#!/usr/bin/env python3
"""Writes the two files of parameters beside it; docs/FORMATS.md says what they hold."""

import hashlib
from pathlib import Path

PRIME = 2**64 - 2**32 + 1
STATE, CAPACITY, SECURITY, ROUNDS = 12, 4, 128, 7
BYTES_PER_NUMBER = 9

HERE = Path(__file__).parent


def derived():
    """The constants of RPO: numbers from SHAKE-256 of its own description, each modulo the prime."""
    seed = f"RPO({PRIME},{STATE},{CAPACITY},{SECURITY})".encode()
    count = 2 * STATE * ROUNDS
    stream = hashlib.shake_256(seed).digest(BYTES_PER_NUMBER * count)
    parts = (stream[BYTES_PER_NUMBER * i : BYTES_PER_NUMBER * (i + 1)] for i in range(count))
    return [int.from_bytes(part, "little") % PRIME for part in parts]


def write(name, numbers):
    (HERE / name).write_text("".join(f"{number}\n" for number in numbers))


write("derived", derived())
write("zeros", [0] * 168)
