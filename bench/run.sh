#!/bin/bash
# Two benches of `run`, each against plain Rust (over reference/) in turn.
#
# `run.sh CASE` times the whole command over one of the programs of sources.sh: the source is read, assembled and executed,
# all tables are filled, and the table file and the statement are written. Plain Rust is fill.rs; its files must be the same
# byte for byte. The ratio of the times is to be at most 1.5, and the peak memory at most 2.2 times the table file. CASE is
# `span`, which is meant where there is none: nearly 2^19 rows of the main table; or `loop` or `flow`, of some 430,000; or
# `calls`, of 20,000 calls on a stack of DEPTH cells; or `all`, of some 79,000; or `permutations`, of 20,000 HPERMs, each of
# which plain Rust computes once; or `dispatch`, a loop of dynamic blocks, of some 490,000: for these two the ratio of the times
# is to be at most 1.2. TURNS is how often the source's outer body is repeated, MIDEN the program in place of the one that the
# script `miden` builds, RUNS how often both run, and where INSTRUCTIONS is set instructions are counted in place of times.
# LARGE_PAGES says which sides have large pages (command.py).
#
# `run.sh crates` times a source of about 500,000 cycles, a loop with calls that read and write memory, by the crates that
# the command stands on and by run.rs: the source is read, assembled and executed, and the cycles and the outputs are
# printed. Prints the least time of both processes, their peak memory, and the ratio of the times, which is to be at most
# 1.2. The program over the crates is made in a temporary folder.
set -e
top=$(cd "$(dirname "$0")/.." && pwd)
work=$(mktemp -d)
trap 'rm -rf "$work"' EXIT

kernel=
# shellcheck source=bench/sources.sh
. "$top/bench/sources.sh"
# shellcheck source=bench/plain.sh
. "$top/bench/plain.sh"

whole_command() {
    local program=${MIDEN:-$top/crates/miden_cli/out/miden_cli}
    [ -x "$program" ] || "$top/miden" >/dev/null || true
    make_plain fill
    cd "$work"
    make_source "$1"
    local files="$top/examples/params/derived program.masm inputs"
    echo "parts of plain Rust: assemble, execute, fill, encode, write"
    local most=1.5
    case $1 in permutations | dispatch) most=1.2 ;; esac
    # shellcheck disable=SC2086
    python3 "$top/bench/command.py" "run of $1" "$most" 2.2 plain.table "${RUNS:-7}" \
        "$program" run $files --out table --statement statement ${kernel:+--kernel "$kernel"} \
        -- ./fill $files plain.table plain.statement $kernel -- "table plain.table" "statement plain.statement"
}

if [ "$1" != crates ]; then
    whole_command "${1:-span}"
    exit
fi
# shellcheck source=bench/crates.sh
. "$top/bench/crates.sh"
libraries='masm_link masm_lex processor machine_cycles block_tree perm_memo rpo_hash host_io vm_io vm_state vm_field'
# shellcheck disable=SC2086
copy_crates $libraries
mkdir -p "$work/crates/bench_run/src"
echo "bench_run: $libraries" >>"$work/crates.txt"
cat >"$work/crates/bench_run/src/main.rt" <<'END'
//! Assembles and executes a source.
#![tactic(auto)]

use host_io::FolderShelf;
use masm_lex::MAX_SOURCE;
use masm_link::assemble;
use processor::execute;
use rpo_hash::Params;
use std::alloc::Global;
use std::{env, io};
use vm_field::{Bytes, Felt, Felts};
use vm_io::Shelf;
use vm_state::Inputs;

fn constants(from: u64) -> [[Felt; 12]; 7] {
    let mut constants = [[Felt::ZERO; 12]; 7];
    for k in 0..7 {
        for i in 0..12 {
            let number = u128::from(from) + 1000 * k as u128 + i as u128;
            constants[k][i] = Felt::reduced(number);
        }
    }
    constants
}

fn run(rt: &HostRuntime, source: &Bytes) -> io::Result<()> {
    let alloc = rt.alloc();
    let source = source.as_slice();
    if source.len() > MAX_SOURCE {
        return println!(rt; "too long");
    }
    let params = Params { first: constants(1), second: constants(7) };
    let Ok(program) = assemble(alloc, &params, source, None) else {
        return println!(rt; "refused");
    };
    let inputs = Inputs::new(Felts::new(alloc), Felts::new(alloc));
    let Ok(run) = execute(alloc, &params, &program, &inputs, 524287) else {
        return println!(rt; "stopped");
    };
    let cycles = run.events.len();
    print!(rt; "{cycles}")?;
    for cell in run.state.visible() {
        print!(rt; " {cell}")?;
    }
    println!(rt; "")
}

fn main(rt: HostRuntime) -> io::Result<()> {
    let mut shelf = FolderShelf::new(&rt);
    for word in env::args(&rt)?.skip(1) {
        let name = word.as_str();
        if name.len() > 200 {
            return println!(rt; "no such source");
        }
        match shelf.read(rt.alloc(), name, 1048576) {
            Ok(source) => run(&rt, &source)?,
            Err(_) => println!(rt; "no source")?,
        }
    }
    Ok(())
}
END
cat >"$work/loop.masm" <<'END'
proc.step
    mem_load.5 add.3 dup mul mem_store.5
end
begin
    push.20833 push.1
    while.true
        call.step add.18446744069414584320 dup neq.0
    end
end
END
make_plain run
cd "$work/crates/bench_run"
rt run >"$work/log" 2>&1 || { cat "$work/log"; exit 1; }
python3 - "$work" <<'PY'
import os, subprocess, sys, time

work = sys.argv[1]
os.chdir(work)

def run(words):
    start = time.monotonic()
    child = subprocess.Popen(words, stdout=subprocess.PIPE, text=True)
    printed = child.stdout.read()
    _, status, usage = os.wait4(child.pid, 0)
    if status != 0 or len(printed.split()) != 17:
        sys.exit(f"{words} did not end: {printed}")
    return time.monotonic() - start, usage.ru_maxrss / 1000, printed

programs = {"crates": ["crates/bench_run/out/bench_run", "loop.masm"], "plain": ["./run", "loop.masm"]}
times, peaks, came = {"crates": [], "plain": []}, {}, {}
for _ in range(9):
    for side, words in programs.items():
        seconds, peaks[side], came[side] = run(words)
        times[side].append(seconds)
    if came["crates"] != came["plain"]:
        sys.exit(f"the results differ: {came}")
ours, plain = min(times["crates"]), min(times["plain"])
print(f"run: {came['plain'].split()[0]} cycles, plain Rust {1000 * plain:.1f} ms, {peaks['plain']:.1f} MB, "
      f"crates {1000 * ours:.1f} ms, {peaks['crates']:.1f} MB, ratio {ours / plain:.2f} of at most 1.2")
PY
