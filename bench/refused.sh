#!/bin/bash
# Refuses each growth of memory of each command in turn, and looks at what is left.
#
# A command that is refused memory answers with the status 12 and prints nothing. Of the files that it writes those before the one
# that it was at stand whole, that one holds a front of what it is to hold or is as it was, and all others are as they were. Some
# growths it can do without (permutations are kept while memory serves): then it answers, prints and writes exactly as always.
# Anything else, a crash among it, ends this script with the status 1.
#
# Growths are refused by a library that is loaded before the system's (refusing.rs). MIDEN is the program in place of the one that the
# script `miden` builds.
set -e
top=$(cd "$(dirname "$0")/.." && pwd)
work=$(mktemp -d)
trap 'rm -rf "$work"' EXIT
program=${MIDEN:-$top/crates/miden_cli/out/miden_cli}
[ -x "$program" ] || "$top/miden" >/dev/null || true
rustc --edition 2021 -O --crate-type cdylib -o "$work/librefusing.so" "$top/bench/refusing.rs"
cp "$top/examples/params/derived" "$work/z"
cp "$top"/examples/programs/account.* "$top/examples/numbers/counting" "$work"
cp "$top/examples/traces/sum.table" "$top/examples/traces/sum.json" "$top/examples/traces/forged.table" "$work"
exec python3 - "$work" "$program" <<'END'
import os, subprocess, sys

work, program = sys.argv[1:]
os.chdir(work)
MEMORY = 12
COMMANDS = [
    ("hash z counting", []),
    ("hash z missing", []),
    ("assemble z account.masm --kernel account.kernel.masm", []),
    ("run z account.masm account.json --kernel account.kernel.masm --out t --statement u", ["t", "u"]),
    ("run z account.masm account.json --out t --statement u", ["t", "u"]),
    ("make z 2 --source m --inputs n", ["m", "n"]),
    ("check z sum.table sum.json --evidence e", ["e"]),
    ("check z sum.table sum.json --evidence e --pieces 4", ["e"]),
    ("check z forged.table sum.json --evidence e", ["e"]),
]


def read(name):
    try:
        with open(name, "rb") as file:
            return file.read()
    except FileNotFoundError:
        return None


def clear(outputs):
    for name in outputs:
        if os.path.exists(name):
            os.remove(name)


# What a run of the command comes to where the growth of this number is refused, 0 for none, and whether it had so many growths.
def run(words, outputs, number):
    clear(outputs)
    environment = {"LD_PRELOAD": f"{work}/librefusing.so", "REFUSED": str(number)}
    ran = subprocess.run([program, *words.split()], env=environment, capture_output=True)
    return ran.returncode, ran.stdout, [read(it) for it in outputs], b"refused" in ran.stderr


# Whether these are outputs of which those before one stand whole, that one holds a front of its bytes, and the others are missing.
def is_cut(left, whole):
    at = 0
    while at < len(left) and left[at] is not None and left[at] == whole[at]:
        at += 1
    if at < len(left) and left[at] is not None and whole[at] is not None and whole[at].startswith(left[at]):
        at += 1
    return all(it is None for it in left[at:])


wrong = 0
for words, outputs in COMMANDS:
    status, printed, whole, _ = run(words, outputs, 0)
    number = refused = same = 0
    while True:
        number += 1
        answer, said, left, is_reached = run(words, outputs, number)
        if not is_reached:
            break
        if answer == MEMORY and said == b"" and is_cut(left, whole):
            refused += 1
        elif (answer, said, left) == (status, printed, whole):
            same += 1
        else:
            wrong += 1
            print(f"{words}: growth {number} refused: status {answer}, printed {said!r}, files {[it and len(it) for it in left]}")
    print(f"{words}: status {status}, {number - 1} growths: {refused} answered with the status {MEMORY}, {same} as always")
sys.exit(1 if wrong else 0)
END
