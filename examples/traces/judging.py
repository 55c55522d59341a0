"""Has changed files of an accepted table checked, for the scripts beside this file."""
import collections
import os
import random
import re
import subprocess
import sys
import tempfile

from audit import faults
from files import table_in

ACCEPTED = "accepted, and consistent"
REFUSED, MALFORMED = 1, 10

# A changed file: the bytes of the table file, what was changed in it, and another statement's text where that was.
Change = collections.namedtuple("Change", ["content", "what", "statement"], defaults=[None, None])


def answer(files, table):
    """What kind of answer a table file is given. Any other than a refusal or consistent evidence ends the script."""
    miden, params, statement, evidence = files
    words = [miden, "check", params, table, statement, "--evidence", evidence]
    said = subprocess.run(words, capture_output=True, text=True, check=False)
    parts = said.stdout.split()
    if said.returncode == REFUSED:
        return " ".join(parts[:2])
    if said.returncode == MALFORMED:
        return f"{parts[0]} {parts[-1]}"
    if said.returncode != 0:
        sys.exit(f"status {said.returncode}: {said.stdout.strip()}")
    wrong = list(faults(params, table, statement, evidence))
    if wrong:
        sys.exit(f"{said.stdout.strip()}: {wrong}")
    return ACCEPTED


def show_progress(done, times):
    """Counts for who watches, and says nothing in a file or a pipe."""
    if sys.stderr.isatty():
        print(f"\r{done} of {times}", end="\n" if done == times else "", file=sys.stderr, flush=True)


def try_many(script, words, changed, times):
    """Has files checked that `changed` makes of the bytes of an accepted one and of a choice. It prints what was changed in each that is
    accepted still, where that is told, and then how often each answer came."""
    if not 4 <= len(words) <= 6 or not all(re.fullmatch("[0-9]+", word) for word in words[4:5]):
        print(f"usage: {script} MIDEN PARAMS TABLE STATEMENT [TIMES [SEED]]", file=sys.stderr)
        sys.exit(2)
    miden, params, table, statement = words[:4]
    times, choice = int((words[4:] or [times])[0]), random.Random((words[5:] or ["1"])[0])
    content = table_in(table)
    answers = collections.Counter()
    with tempfile.TemporaryDirectory(dir=".") as folder:
        name, claim, evidence = (os.path.join(os.path.relpath(folder), it) for it in ("changed", "claim", "evidence"))
        honest = answer((miden, params, statement, evidence), table)
        if honest != ACCEPTED:
            sys.exit(f"{table} is not accepted as it is: {honest}")
        for done in range(times):
            change = changed(content, choice)
            with open(name, "wb") as file:
                file.write(change.content)
            if change.statement is not None:
                with open(claim, "w", encoding="utf-8") as file:
                    file.write(change.statement)
            kind = answer((miden, params, statement if change.statement is None else claim, evidence), name)
            answers[kind] += 1
            show_progress(done + 1, times)
            if kind == ACCEPTED and change.what is not None:
                print("accepted", change.what)
    for kind, count in sorted(answers.items()):
        print(count, kind)
