"""Files that the scripts beside this one read. Where one is missing, or is not what it is to be, a script ends with one line that says
so, and with status 1."""
import json
import re
import sys

from rpo import CONSTANTS, P
from tables import HEAD, MAGIC, VERSIONS, cells_in, counts_in


def run(main):
    """Runs a script; a file that it cannot read or write, or a program that is not there, is told in one line."""
    try:
        main()
    except BrokenPipeError:
        # Who reads the output has gone; nothing is left to be said.
        sys.stderr.close()
        sys.exit(1)
    except OSError as error:
        sys.exit(f"{error.filename}: {error.strerror}" if error.filename else str(error))


def bytes_in(path):
    with open(path, "rb") as file:
        return file.read()


def text_in(path):
    try:
        return bytes_in(path).decode()
    except UnicodeDecodeError as error:
        sys.exit(f"{path}: byte {error.start} is not of a text")


def params_in(path):
    """The constants of the permutation."""
    lines = text_in(path).splitlines()
    if len(lines) != CONSTANTS or not all(re.fullmatch("[0-9]+", line) and int(line) < P for line in lines):
        sys.exit(f"{path}: these are not {CONSTANTS} lines with a number below {P} each")
    return [int(line) for line in lines]


def table_in(path):
    """The bytes of a table file, as long as its head says."""
    content = bytes_in(path)
    if content[:4] != MAGIC or len(content) < HEAD:
        sys.exit(f"{path}: this is no table file, which begins with {MAGIC.decode()} and has {HEAD} bytes at least")
    version = int.from_bytes(content[4:8], "little")
    if version not in VERSIONS:
        sys.exit(f"{path}: this table file has the version {version}, not one of {', '.join(map(str, VERSIONS))}")
    wanted = HEAD + 8 * cells_in(content)
    if len(content) != wanted:
        rows = " ".join(map(str, counts_in(content)))
        sys.exit(f"{path}: this table file has {len(content)} bytes, and with its counts of rows, {rows}, it would have {wanted}")
    return content


def statement_in(path):
    """A statement as an object, with the keys that it is to have."""
    try:
        said = json.loads(text_in(path))
    except ValueError as error:
        sys.exit(f"{path}: this is no JSON: {error}")
    if not isinstance(said, dict) or sorted(said) != ["digest", "inputs", "kernel", "outputs"]:
        sys.exit(f"{path}: this is no statement, which is an object with the keys digest, inputs, kernel and outputs")
    return said
