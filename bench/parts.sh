#!/bin/bash
# Times each part of `run` and of `check` by the crates that the commands stand on, against plain Rust (fill.rs and check.rs over reference/)
# in turn: assembling, executing, filling all tables, writing their file; reading and decoding it, testing the rows with counting and
# comparing the buses, and extracting the evidence with its text.
#
# `parts.sh CASE` takes a program of sources.sh, `all` where there is none. Prints the least time of each part in
# microseconds and their ratio, which is to be at most 1.0. TURNS is how often the source's outer body is repeated, RUNS how often both
# run. The program over the crates is made in a temporary folder, or is PARTS, where that is given; KEEP names a copy of it to keep.
# What earlier checks left in the crates' folders out/ is used; with that, proving the program takes some minutes.
set -e
top=$(cd "$(dirname "$0")/.." && pwd)
work=$(mktemp -d)
trap 'rm -rf "$work"' EXIT
kernel=
# shellcheck source=bench/crates.sh
. "$top/bench/crates.sh"
# shellcheck source=bench/sources.sh
. "$top/bench/sources.sh"
# shellcheck source=bench/plain.sh
. "$top/bench/plain.sh"
make_plain check fill

make_program() {
    local libraries='fill_files sound_evidence checker table_file air_kit masm_link masm_lex processor machine_cycles statement
        block_tree rpo_hash host_io vm_io vm_state vm_table vm_field'
    # shellcheck disable=SC2086
    copy_crates $libraries
    mkdir -p "$work/crates/bench_parts/src"
    # shellcheck disable=SC2086
    echo bench_parts: $libraries anyhow >>"$work/crates.txt"
    cat >"$work/crates/bench_parts/src/main.rt" <<'END_MAIN'
//! Times the parts of `run` and of `check` over one source.
#![tactic(auto)]

ghost use Rattle.std.specs.Prelude.{◌≤◌, length, IfSome};

use air_kit::Public;
use checker::{Seed, check, check_rows};
use fill_files::{statement_file_of_run, trace_of_run};
use host_io::FolderShelf;
use masm_lex::MAX_SOURCE;
use masm_link::assemble;
use processor::execute;
use rpo_hash::Params;
use sound_evidence::extract;
use statement::{read_inputs, read_statement, write_evidence};
use std::thread::Threads;
use std::time::Instant;
use std::{env, fs};
use table_file::{TablePieces, TableReader, decode};
use vm_io::{OpenGate, Shelf};

// The microseconds since the last lap.
fn lap(rt: &HostRuntime, start: &mut Instant) -> anyhow::Result<u128> {
    let micros = start.elapsed(rt)?.as_micros();
    *start = Instant::now(rt)?;
    Ok(micros)
}

// How long the table file takes to read as its bytes come.
fn time_reading(
    rt: &HostRuntime,
    shelf: &mut FolderShelf<'_, HostRuntime>,
) -> anyhow::Result<Option<u128>> {
    let mut start = Instant::now(rt)?;
    let mut reader = TableReader::new(rt.alloc());
    if shelf.read_pieces("crates.table", 1073741824, &mut reader).is_err() {
        return Ok(None);
    }
    if reader.finish().is_err() {
        return Ok(None);
    }
    Ok(Some(lap(rt, &mut start)?))
}

fn time(
    rt: &HostRuntime,
    threads: &(impl Threads + Sync),
    params: &Params,
    source: &[u8],
    inputs: &[u8],
    kernel: Option<&[u8]>,
) -> anyhow::Result<()>
    requires source { length source.now ≤ 1048576 }
    requires kernel { IfSome kernel (λ text. length text.now ≤ 1048576) }
{
    let alloc = rt.alloc();
    let Ok(inputs) = read_inputs(alloc, inputs) else {
        println!(rt; "no inputs")?;
        return Ok(());
    };
    let mut start = Instant::now(rt)?;
    let Ok(program) = assemble(alloc, params, source, kernel) else {
        println!(rt; "no program")?;
        return Ok(());
    };
    let assembling = lap(rt, &mut start)?;
    let Ok(run) = execute(alloc, params, &program, &inputs, 524287) else {
        println!(rt; "no run")?;
        return Ok(());
    };
    let executing = lap(rt, &mut start)?;
    let Ok((trace, end)) = trace_of_run(threads, alloc, params, &program, run, 1, &OpenGate) else {
        println!(rt; "no tables")?;
        return Ok(());
    };
    let filling = lap(rt, &mut start)?;
    let Ok(text) = statement_file_of_run(alloc, program, inputs, &end) else {
        println!(rt; "no statement")?;
        return Ok(());
    };
    drop(end);
    let Ok(statement) = read_statement(alloc, text.as_slice()) else {
        println!(rt; "no statement")?;
        return Ok(());
    };
    let mut shelf = FolderShelf::new(rt);
    start = Instant::now(rt)?;
    if shelf.write_pieces(alloc, "crates.table", &mut TablePieces::new(&trace)).is_err() {
        println!(rt; "no table file")?;
        return Ok(());
    }
    let writing = lap(rt, &mut start)?;
    drop(trace);
    start = Instant::now(rt)?;
    let Some(reading) = time_reading(rt, &mut shelf)? else {
        println!(rt; "no table file")?;
        return Ok(());
    };
    let Ok(bytes) = shelf.read(alloc, "crates.table", 1073741824) else {
        println!(rt; "no table file")?;
        return Ok(());
    };
    let Ok(trace) = decode(alloc, bytes.as_slice()) else {
        println!(rt; "no trace")?;
        return Ok(());
    };
    drop(bytes);
    let public = Public { params: *params, statement };
    start = Instant::now(rt)?;
    if check_rows(threads, &trace, &public, 1, &OpenGate).is_some() {
        println!(rt; "a fault in a row")?;
    }
    let testing = lap(rt, &mut start)?;
    let Ok(valid) = check(threads, alloc, Seed::new(0), trace, public, 1, &OpenGate) else {
        println!(rt; "not accepted")?;
        return Ok(());
    };
    let counting = lap(rt, &mut start)?.saturating_sub(testing);
    let Ok(evidence) = extract(alloc, &valid) else {
        println!(rt; "no evidence")?;
        return Ok(());
    };
    let Ok(evidence) = write_evidence(alloc, &evidence) else {
        println!(rt; "no evidence")?;
        return Ok(());
    };
    let extracting = lap(rt, &mut start)?;
    drop(evidence);
    println!(rt; "{assembling} {executing} {filling} {writing} {reading} {testing} {counting} {extracting}")?;
    Ok(())
}

fn main(rt: HostRuntime) -> anyhow::Result<()> {
    let mut files = Vec::new(rt.alloc());
    for word in env::args(&rt)?.skip(1) {
        files.push(fs::read(&rt, word.as_str())?)?;
    }
    if files.len() < 3 {
        println!(rt; "give PARAMS SOURCE INPUTS [KERNEL]")?;
        return Ok(());
    }
    let Ok(params) = Params::read(files[0].as_slice()) else {
        println!(rt; "no parameters")?;
        return Ok(());
    };
    let source = files[1].as_slice();
    let kernel = if files.len() > 3 {
        Some(files[3].as_slice())
    } else {
        None
    };
    if source.len() > MAX_SOURCE || kernel.is_some_and(|text| text.len() > MAX_SOURCE) {
        println!(rt; "too long")?;
        return Ok(());
    }
    time(&rt, &rt, &params, source, files[2].as_slice(), kernel)
}
END_MAIN
    cd "$work/crates/bench_parts"
    rt run >"$work/log" 2>&1 || { cat "$work/log"; exit 1; }
    cp out/bench_parts "$work/parts"
}

cd "$work"
if [ -n "$PARTS" ]; then
    cp "$PARTS" parts
else
    make_program
    [ -z "$KEEP" ] || cp "$work/parts" "$KEEP"
    cd "$work"
fi
case=${1:-all}
make_source "$case"
params=$top/examples/params/derived
for _ in $(seq "${RUNS:-7}"); do
    # shellcheck disable=SC2086
    ./parts "$params" program.masm inputs $kernel >>crates.times
    # shellcheck disable=SC2086
    ./fill "$params" program.masm inputs table statement $kernel 2>>fill.times >/dev/null
    ./check check "$params" table statement evidence 2>>check.times >>answers
done
if grep -q '[a-z]' crates.times || grep -qv '^accepted' answers; then
    cat crates.times answers
    exit 1
fi
least() {
    cut -d' ' -f"$2" "$1.times" | sort -n | head -1
}
show() {
    echo "$case: $1: plain Rust $2 us, the crates $3 us, ratio $(echo "scale=2; $3 / $2" | bc) of at most 1.0"
}
show assembling "$(least fill 1)" "$(least crates 1)"
show executing "$(least fill 2)" "$(least crates 2)"
show filling "$(least fill 3)" "$(least crates 3)"
show "encoding and writing" "$(($(least fill 4) + $(least fill 5)))" "$(least crates 4)"
show "reading and decoding" "$(($(least check 1) + $(least check 2)))" "$(least crates 5)"
show "rows and buses" "$(($(least check 3) + $(least check 4)))" "$(($(least crates 6) + $(least crates 7)))"
show extracting "$(least check 5)" "$(least crates 8)"
