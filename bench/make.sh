#!/bin/bash
# Times `make` as a whole against plain Rust (make.rs over reference/) in turn: a workload of TURNS turns, 1,000 where that is not given, is
# assembled and executed, its tables are filled, their rows tested and their buses counted and compared, and the source and the inputs
# are written, which must be the same byte for byte. Prints the least time of ten and the ratio, which is to be at most 1.0, and the
# peak memory beside the table file that `run` would write, of which it is to be at most 2.5 times as much. MIDEN is the program in
# place of the one that the script `miden` builds, RUNS how often both run, and where INSTRUCTIONS is set instructions are counted in
# place of times (command.py).
set -e
top=$(cd "$(dirname "$0")/.." && pwd)
work=$(mktemp -d)
trap 'rm -rf "$work"' EXIT
program=${MIDEN:-$top/crates/miden_cli/out/miden_cli} params=$top/examples/params/derived turns=${TURNS:-1000}
[ -x "$program" ] || "$top/miden" >/dev/null || true
# shellcheck source=bench/plain.sh
. "$top/bench/plain.sh"
make_plain make fill
cd "$work"
./make "$params" "$turns" source inputs >/dev/null 2>&1
./fill "$params" source inputs table statement >/dev/null 2>&1
echo "parts of plain Rust: assemble, execute, fill, rows and buses, write"
python3 "$top/bench/command.py" "make of $turns" 1.0 2.5 table "${RUNS:-10}" \
    "$program" make "$params" "$turns" --source source --inputs inputs \
    -- ./make "$params" "$turns" plain.source plain.inputs -- "source plain.source" "inputs plain.inputs"
