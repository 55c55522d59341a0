//! The command `make` in plain Rust, for `make.sh` to compare with: `PARAMS N M I`. The source and the inputs of a workload of N turns
//! are made, the program is assembled and executed, its seven tables are filled, all their rows are tested and their buses counted and
//! compared, all in memory; then the source is written to M and the inputs to I. Prints the cycles, the stack and that the trace is
//! accepted, and to standard error the microseconds of each part.
use reference::assembly::{Kernel, assemble};
use reference::checking::{Pieces, compared, passed};
use reference::commands::{Program, Ran, outputs_line, ran};
use reference::formats::statements::Statement;
use reference::formats::{decimals, inputs};
use reference::machine::MOST_CYCLES;
use reference::trace::fill;
use reference::workload;
use std::time::Instant;

fn micros(start: &mut Instant) -> u128 {
    let micros = start.elapsed().as_micros();
    *start = Instant::now();
    micros
}

fn main() {
    let words: Vec<String> = std::env::args().collect();
    let [_, params, turns, source_name, inputs_name] = &words[..] else { panic!("give PARAMS N M I") };
    let params = decimals::params(&std::fs::read(params).expect("the parameters are read")).expect("parameters");
    let turns: u64 = turns.parse().expect("a number of turns");
    let mut start = Instant::now();
    let (source, inputs) = (workload::source(turns), workload::inputs(turns));
    let text = inputs::written(&inputs);
    let tree = assemble(&params, source.as_bytes(), &Kernel::default()).expect("a program");
    let program = Program::of(&params, tree, Kernel::default());
    let assembling = micros(&mut start);
    let run = ran(&params, &program, &inputs, MOST_CYCLES).expect("the run ends");
    let executing = micros(&mut start);
    let cycles = run.cycles();
    let Ran { log, outputs } = run;
    let tables = fill(&program.blocks, &[], log);
    let filling = micros(&mut start);
    let lines = format!("cycles {cycles}\n{}", outputs_line(&outputs));
    let statement = Statement { digest: program.digest(), kernel: Vec::new(), inputs: Vec::new(), outputs };
    let (_, buses) = passed(&params, &tables, &statement, Pieces { low: 0, high: 1, all: 1 }).expect("no row is refused");
    compared(&buses).expect("no bus is refused");
    drop(buses);
    let checking = micros(&mut start);
    std::fs::write(source_name, source).expect("the source is written");
    std::fs::write(inputs_name, text).expect("the inputs are written");
    println!("{lines}\naccepted");
    eprintln!("{assembling} {executing} {filling} {checking} {}", micros(&mut start));
}
