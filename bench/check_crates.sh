# shellcheck shell=bash
# For the scripts beside this one to read, behind crates.sh. `make_bench_check PIECES..` makes, in the folder `work`, the crate
# bench_check, a program that reads the table file that it is given, tests its rows and counts and compares its buses in each of these
# numbers of pieces, and prints for each the main rows and the microseconds of reading, of testing and of counting.
make_bench_check() {
    local libraries='checker table_file air_kit vm_state rpo_hash vm_io vm_table vm_field'
    local numbers=$*
    # shellcheck disable=SC2086
    copy_crates $libraries
    # shellcheck disable=SC2154
    mkdir -p "$work/crates/bench_check/src" "$work/crates/bench_check/proofs/public_of"
    echo "bench_check: $libraries anyhow" >>"$work/crates.txt"
    cat >"$work/crates/bench_check/src/main.rt" <<'END_MAIN'
//! Times reading a table file and testing its rows.
#![tactic(auto)]

use air_kit::{Public, Trace};
use checker::{Seed, check, check_rows, has_counts};
use rpo_hash::Params;
use std::alloc::Global;
use std::thread::Threads;
use std::time::Instant;
use std::{env, fs};
use table_file::decode;
use vm_field::{Felt, Felts, Memory, Word, Words};
use vm_io::OpenGate;
use vm_state::Statement;
use vm_table::MainView;

// Constants of zeros, and the statement whose digest and outputs the last two rows show.
fn public_of(alloc: Global, trace: &Trace) -> Result<Public, Memory> {
    let mut outputs = [Felt::ZERO; 16];
    let mut digest = Word::ZERO;
    let rows = trace.main.rows();
    if 1 < rows {
        let last = trace.main.row(rows - 1);
        for j in 0..16 {
            outputs[j] = last.s(j);
        }
        let end = trace.main.row(rows - 2);
        digest = Word([end.h0(), end.h1(), end.h2(), end.h3()]);
    }
    let params = Params { first: [[Felt::ZERO; 12]; 7], second: [[Felt::ZERO; 12]; 7] };
    let outputs = Felts::copied(alloc, &outputs)?;
    let statement = Statement::new(digest, Words::new(alloc), Felts::new(alloc), outputs);
    Ok(Public { params, statement })
}

static PIECES: [usize; LENGTH] = [NUMBERS];

// The microseconds of reading, of testing and of counting in so many pieces, or what went wrong.
fn time(
    rt: &HostRuntime,
    threads: &(impl Threads + Sync),
    file: &str,
    pieces: usize,
) -> anyhow::Result<()> {
    let bytes = fs::read(rt, file)?;
    let start = Instant::now(rt)?;
    let Ok(trace) = decode(rt.alloc(), bytes.as_slice()) else {
        println!(rt; "no table file")?;
        return Ok(());
    };
    let reading = start.elapsed(rt)?.as_micros();
    let Ok(public) = public_of(rt.alloc(), &trace) else {
        println!(rt; "out of memory")?;
        return Ok(());
    };
    if !has_counts(&trace) || pieces < 1 || 64 < pieces {
        println!(rt; "the counts are not right")?;
        return Ok(());
    }
    let start = Instant::now(rt)?;
    let fault = check_rows(threads, &trace, &public, pieces, &OpenGate);
    let testing = start.elapsed(rt)?.as_micros();
    if let Some(fault) = fault {
        let (table, row, number) = (fault.table.number(), fault.row, fault.number);
        println!(rt; "a fault in table {table}, row {row}, entry {number}")?;
    }
    let rows = trace.main.rows();
    let start = Instant::now(rt)?;
    let answer = check(threads, rt.alloc(), Seed::new(0), trace, public, pieces, &OpenGate);
    let counting = start.elapsed(rt)?.as_micros().saturating_sub(testing);
    if answer.is_err() {
        println!(rt; "not accepted")?;
    }
    println!(rt; "{rows} {reading} {testing} {counting}")?;
    Ok(())
}

fn main(rt: HostRuntime) -> anyhow::Result<()> {
    for word in env::args(&rt)?.skip(1) {
        for pieces in &PIECES {
            time(&rt, &rt, word.as_str(), *pieces)?;
        }
    }
    Ok(())
}
END_MAIN
    sed -i "s/LENGTH/$#/; s/NUMBERS/${numbers// /, }/" "$work/crates/bench_check/src/main.rt"
    cat >"$work/crates/bench_check/proofs/public_of/Answers.antt" <<'END_ANSWERS'
use Rattle.std.specs.List.{IsDistinct}
use Rattle.bench_check.proofs.public_of.Goals as goal

-- no word stands twice in no words
pub new-statement-requires-clause-distinct : goal.new-statement-requires-clause-distinct
unfolding IsDistinct
new-statement-requires-clause-distinct c = rw c.new.ensures.empty tt
END_ANSWERS
}
