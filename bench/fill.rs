//! The command `run` in plain Rust, for `run.sh` to compare with: `PARAMS SOURCE INPUTS T STATEMENT [KERNEL]` is assembled and
//! executed, its seven tables are filled and written to T, and what it proves to STATEMENT. Prints the cycles and the stack, and
//! to standard error the microseconds of each part.
//!
//! Each part does what the crates' does: the run is a log of the states before its cycles, and the main table is filled from the
//! log. A block is hashed once, and the rows of its hash are copied wherever it starts.
use reference::assembly::{Kernel, assemble, assemble_kernel};
use reference::commands::{Program, Ran, outputs_line, ran};
use reference::formats::statements::{self, Statement};
use reference::formats::{decimals, inputs, table_files};
use reference::machine::MOST_CYCLES;
use reference::trace::fill;
use std::time::Instant;

fn micros(start: &mut Instant) -> u128 {
    let micros = start.elapsed().as_micros();
    *start = Instant::now();
    micros
}

fn read(path: &str) -> Vec<u8> {
    std::fs::read(path).unwrap_or_else(|error| panic!("{path}: {error}"))
}

fn main() {
    let words: Vec<String> = std::env::args().collect();
    let [_, params, source, inputs, table, statement, later @ ..] = &words[..] else {
        panic!("give PARAMS SOURCE INPUTS T STATEMENT [KERNEL]");
    };
    let params = decimals::params(&read(params)).expect("parameters");
    let (source, inputs) = (read(source), inputs::read(&read(inputs)).expect("inputs"));
    let kernel = later.first().map(|path| read(path));
    let mut start = Instant::now();
    let kernel = kernel.map_or(Kernel::default(), |source| assemble_kernel(&source).expect("a kernel"));
    let tree = assemble(&params, &source, &kernel).expect("a program");
    let program = Program::of(&params, tree, kernel);
    let assembling = micros(&mut start);
    let run = ran(&params, &program, &inputs, MOST_CYCLES).expect("the run ends");
    let executing = micros(&mut start);
    let cycles = run.cycles();
    let Ran { log, outputs } = run;
    let tables = fill(&program.blocks, &program.kernel, log);
    let filling = micros(&mut start);
    let bytes = table_files::encode(&tables);
    drop(tables);
    let encoding = micros(&mut start);
    std::fs::write(table, &bytes).expect("the tables are written");
    let line = format!("cycles {cycles}\n{}", outputs_line(&outputs));
    let claim = Statement { digest: program.digest(), kernel: program.kernel, inputs: inputs.stack, outputs };
    std::fs::write(statement, statements::written(&claim)).expect("the statement is written");
    let writing = micros(&mut start);
    println!("{line}");
    eprintln!("{assembling} {executing} {filling} {encoding} {writing}");
}
