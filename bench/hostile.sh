#!/bin/bash
# Checks files that were made to cost the checker more than they are long.
#
# First short table files whose heads claim as many rows as a table may have, one for each table, under a bound of virtual memory
# that none of these tables would fit in. What a head claims reserves nothing: each file is answered `malformed .. Ended` with the
# status 10, and not as refused memory. KILOBYTES is the bound.
#
# Then a memory table of ROWS rows, 128,000 where that is not given, whose tuples would all have the same hash if it began with the
# seed 0, and one of as many ordinary rows: the time of the first is to be at most five times that of the second.
#
# MIDEN is the program in place of the one that the script `miden` builds.
set -e
top=$(cd "$(dirname "$0")/.." && pwd)
work=$(mktemp -d)
trap 'rm -rf "$work"' EXIT
program=${MIDEN:-$top/crates/miden_cli/out/miden_cli}
[ -x "$program" ] || "$top/miden" >/dev/null || true
cp "$top/examples/params/derived" "$work/params"
cp "$top/examples/traces/sum.json" "$work/statement"
cd "$work"
python3 - "$top/examples/traces" <<'END'
import struct, sys

sys.path.insert(0, sys.argv[1])
from tables import COLUMNS, WIDTHS

LEAST = (1, 1, 0, 0, 0, 0, 0)
MOST = (2**19, 2**17, 2**22, 2**22, 2**19, 255, 2**20)
for number, name in enumerate(COLUMNS):
    counts = LEAST[:number] + MOST[number:number + 1] + LEAST[number + 1:]
    rows = list(zip(LEAST[:number], WIDTHS)) + [(1, WIDTHS[number])]
    with open(name, "wb") as file:
        file.write(b"MDTB" + struct.pack("<8I", 2, *counts))
        for count, width in rows:
            file.write(bytes(8 * count * width))
END
failed=0
for name in main range hasher bitwise memory kernel left; do
    status=0
    said=$(ulimit -v "${KILOBYTES:-65536}" && "$program" check params "$name" statement --evidence evidence) || status=$?
    bytes=$(stat -c %s "$name")
    echo "$name: $bytes bytes, status $status, $said"
    if [ "$status" -ne 10 ] || [ "$said" != "malformed $name offset $bytes Ended" ]; then
        failed=1
    fi
done

# The hash of a tuple begins as a FoldHasher that took the seed; it takes the tuple's length and each element, by one
# multiplication each. An element that is what the hasher has come to leaves 0.
make_memory() {
    python3 - "$top/examples/traces" "$1" "${ROWS:-128000}" <<'END'
import sys

sys.path.insert(0, sys.argv[1])
from tables import COLUMNS, tables_in, written

PRIME = 2**64 - 2**32 + 1
MEMORY = list(COLUMNS).index("memory")


def folded(state, number):
    product = (state ^ number) * (0x9E3779B97F4A7C15 ^ 16)
    return (product & (2**64 - 1)) ^ (product >> 64)


def come_to(numbers):
    state = 0x243F6A8885A308D3
    for number in [0, 8] + numbers:
        state = folded(state, number)
    return state


rows = []
for clock in range(1, int(sys.argv[3]) + 1):
    element = come_to([1, 0, 0, clock]) if sys.argv[2] == "colliding" else clock
    rows.append((1, 0, 0, clock, element % PRIME, 0, 0, 0, int(clock == 1), 0, 0, 0, 0, 0))
tables = tables_in(sys.argv[1] + "/sum.table")
tables[MEMORY] = rows
written(sys.argv[2], tables)
END
}

# The least milliseconds of three.
time_of() {
    local least= took began status
    for _ in 1 2 3; do
        began=$(date +%s%N)
        status=0
        "$program" check params "$1" statement --evidence evidence >/dev/null || status=$?
        took=$((($(date +%s%N) - began) / 1000000))
        [ "$status" -eq 1 ] || return 1
        if [ -z "$least" ] || [ "$took" -lt "$least" ]; then least=$took; fi
    done
    echo "$least"
}

make_memory ordinary
make_memory colliding
ordinary=$(time_of ordinary)
colliding=$(time_of colliding)
echo "ordinary rows: $ordinary ms, colliding rows: $colliding ms"
[ "$colliding" -le $((5 * ordinary)) ] || failed=1
exit "$failed"
