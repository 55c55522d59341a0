#!/bin/bash
# Times what reading the words costs: a hundred starts of `hash` of a file of eight numbers, by the program and by an earlier
# one in turn. Prints the least of ten times of each by the clock, and their ratio.
#
# MIDEN_BEFORE is the path of the earlier program, MIDEN the program in place of the one that the script `miden` builds.
set -e
top=$(cd "$(dirname "$0")/.." && pwd)
program=${MIDEN:-$top/crates/miden_cli/out/miden_cli}
[ -x "$program" ] || "$top/miden" >/dev/null || true
if [ ! -x "${MIDEN_BEFORE:-}" ]; then
    echo "MIDEN_BEFORE is to be the path of an earlier program" >&2
    exit 2
fi
work=$(mktemp -d)
trap 'rm -rf "$work"' EXIT
seq 8 >"$work/numbers"
python3 - "$program" "$MIDEN_BEFORE" "$top/examples/params/derived" "$work/numbers" <<'END'
import subprocess
import sys
import time

STARTS, TIMES = 100, 10


def starts(program, *words):
    """Seconds of so many starts, and what the last one printed."""
    began = time.monotonic()
    for _ in range(STARTS):
        said = subprocess.run([program, *words], capture_output=True, check=True).stdout
    return time.monotonic() - began, said


now, before, *files = sys.argv[1:]
sides = {"the program before": before, "the program": now}
came = {side: [] for side in sides}
for _ in range(TIMES):
    for side, program in sides.items():
        came[side].append(starts(program, "hash", *files))
if len({said for results in came.values() for _, said in results}) != 1:
    sys.exit("what is printed differs")
least = {side: min(seconds for seconds, _ in results) for side, results in came.items()}
text = ", ".join(f"{side} {1000 * seconds:.1f} ms" for side, seconds in least.items())
print(f"{STARTS} starts: {text}, ratio {least['the program'] / least['the program before']:.2f}")
END
