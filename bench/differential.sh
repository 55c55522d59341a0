#!/bin/bash
# Compares the program with the library reference/, which is plain Rust written from docs/: the status, the line and every file of both,
# over random cases. `differential.sh [CASES [SEED [KIND ..]]]` has 200 cases of the seed 1 where none are given, which takes less than two
# minutes, and cases of all kinds where none is named. A kind is a function of differential/cases.py; another name prints all of them.
#
# Programs of all kinds are assembled, run and checked, and `member` judges runs that walk a path; sources, table files, statements, inputs,
# lists and parameters are damaged, cells of tables forged, and words left out, repeated and made up. Prints for each kind how many cases and
# commands were compared and how often each answer came; and each difference, with a folder that has the words and the files of both sides.
# Ends with 1 where there is one.
#
# MIDEN is the program in place of the one that the script `miden` builds, and OTHER the one in place of reference/'s. A program is a file
# that is run as docs/FORMATS.md says. Traces that show two hashes of one digest are made by a tool of reference/: with an OTHER, and where
# there is no cargo to build it, cases that want one are passed over.
set -e
top=$(cd "$(dirname "$0")/.." && pwd)
program=${MIDEN:-$top/crates/miden_cli/out/miden_cli}
tools=$top/reference/target/release
other=${OTHER:-$tools/reference}
[ -x "$program" ] || "$top/miden" >/dev/null || true
if [ ! -x "$program" ]; then
    echo "there is no program $program" >&2
    exit 2
fi
if [ -z "$OTHER" ] || command -v cargo >/dev/null; then
    cargo build --release --quiet --manifest-path "$top/reference/Cargo.toml"
fi
if [ ! -x "$other" ]; then
    echo "there is no program $other" >&2
    exit 2
fi
exec python3 "$top/bench/differential/main.py" "$program" "$other" "$tools" "$top" "${1:-200}" "${2:-1}" "${@:3}"
