#!/bin/bash
# Times `runs` and `chain` over LINKS links, 16 where that is not given, of nearly 2^19 rows each, against the sum of as many calls of
# `run` and of `check` over the same files. Each link goes on from the stack that the one before it left. Prints the least time of RUNS
# turns, 3 where that is not given, of both, and their ratio, which is to be at most 1.1; and the peak memory of each, which for the
# links is to be that of one call, beside the text of the evidence of all. MIDEN is the program in place of the one that the script
# `miden` builds.
set -e
top=$(cd "$(dirname "$0")/.." && pwd)
work=$(mktemp -d)
trap 'rm -rf "$work"' EXIT
program=${MIDEN:-$top/crates/miden_cli/out/miden_cli} params=$top/examples/params/derived links=${LINKS:-16} runs=${RUNS:-3}
[ -x "$program" ] || "$top/miden" >/dev/null || true
cd "$work"

# A span of nearly 2^19 operations: what is pushed is added, so that the stack keeps its depth.
printf 'begin repeat.100 repeat.2300 add.3 end end end\n' >program.masm
printf '{"advice":[],"stack":[1]}\n' >first
printf '{"advice":[],"stack":[]}\n' >later
for ((i = 1; i <= links; i++)); do
    inputs=later
    [ "$i" = 1 ] && inputs=first
    echo "program.masm $inputs table$i statement$i"
done >list
sed 's/.* .* \(.*\) \(.*\)/\1 \2/' list >chain

# The least time of a command in seconds, and its peak memory in kilobytes.
timed() {
    for ((turn = 0; turn < runs; turn++)); do
        /usr/bin/time -a -o "$work/times" -f '%e %M' "$@" >/dev/null
    done
    sort -n "$work/times" | head -1
    rm "$work/times"
}

linked_runs=$(timed "$program" runs "$params" list)
linked_checks=$(timed "$program" chain "$params" chain --evidence evidence)
single() {
    local sum=0 peak=0 time memory
    for ((i = 1; i <= links; i++)); do
        read -r time memory <<<"$(timed "$@")"
        sum=$(python3 -c "print($sum + $time)")
        [ "$memory" -gt "$peak" ] && peak=$memory
    done
    echo "$sum $peak"
}
single_runs=$(single "$program" run "$params" program.masm first --out table --statement statement)
single_checks=$(single "$program" check "$params" table statement --evidence one)
python3 - "$links" "$linked_runs" "$single_runs" "$linked_checks" "$single_checks" <<'END'
import sys
links = sys.argv[1]
for name, linked, single in (("runs", *sys.argv[2:4]), ("chain", *sys.argv[4:6])):
    (time, peak), (sum_of, most) = (map(float, it.split()) for it in (linked, single))
    print(f"{name} of {links} links: {time:.2f} s, {links} single calls {sum_of:.2f} s, ratio {time / sum_of:.2f} (at most 1.1);"
          f" peak {peak / 1024:.0f} MB, of one call {most / 1024:.0f} MB")
END
