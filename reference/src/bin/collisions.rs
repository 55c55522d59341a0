//! Makes traces that show two hashes of one digest, for tests of what is told of them:
//!
//!     collisions PARAMS SOURCE INPUTS T S SEED [KERNEL]
//!
//! runs a program as `run` does, but that some spans have batches of zeros in front, which do nothing and, where all constants are 0,
//! leave the digest as it is. By SEED a span has as many each time that it runs, or now more and now fewer.
use reference::assembly::{Kernel, assemble, assemble_kernel};
use reference::commands::Program;
use reference::formats::statements::{self, Statement};
use reference::formats::{decimals, inputs, table_files};
use reference::machine::{Blocks, MOST_CYCLES, Machine, Parts};
use reference::trace::fill;
use reference::trees::Tree;
use std::collections::HashMap;

const MOST_ZEROS: usize = 2;

fn read(path: &str) -> Vec<u8> {
    std::fs::read(path).unwrap_or_else(|error| panic!("{path}: {error}"))
}

// Adds the spans with zeros in front, and gives for each span its own place and theirs.
fn twins(blocks: &mut Blocks) -> HashMap<usize, Vec<usize>> {
    let mut twins = HashMap::new();
    for place in 0..blocks.list.len() {
        let Parts::Span(batches) = &blocks.list[place].parts else { continue };
        let batches = batches.clone();
        let mut places = vec![place];
        for zeros in 1..=MOST_ZEROS {
            let longer = vec![[0; 8]; zeros].into_iter().chain(batches.iter().copied()).collect();
            places.push(blocks.add(Tree::Span(longer)));
        }
        assert!(
            places.iter().all(|twin| blocks.list[*twin].digest == blocks.list[place].digest),
            "constants under which zeros hide"
        );
        twins.insert(place, places);
    }
    twins
}

// A number that looks like any other one.
fn mixed(seed: u64, place: usize, clock: usize) -> usize {
    let mut number = seed ^ (place as u64) << 20 ^ (clock as u64) << 40;
    for _ in 0..3 {
        number = (number ^ number >> 31).wrapping_mul(0x9e37_79b9_7f4a_7c15);
    }
    (number >> 33) as usize
}

fn main() {
    let words: Vec<String> = std::env::args().collect();
    let [_, params, source, inputs, table, statement, seed, later @ ..] = &words[..] else {
        panic!("give PARAMS SOURCE INPUTS T S SEED [KERNEL]");
    };
    let params = decimals::params(&read(params)).expect("parameters");
    let kernel = later.first().map_or(Kernel::default(), |path| assemble_kernel(&read(path)).expect("a kernel"));
    let tree = assemble(&params, &read(source), &kernel).expect("a program");
    let inputs = inputs::read(&read(inputs)).expect("inputs");
    let seed: u64 = seed.parse().expect("a number");
    let program = Program::of(&params, tree, kernel);
    let mut blocks = Blocks::behind(&params, program.blocks);
    let twins = twins(&mut blocks);
    let chosen = |place: usize, clock: usize| match twins.get(&place) {
        Some(places) => places[mixed(seed, place, clock * (seed % 2) as usize) % places.len()],
        None => place,
    };
    let mut machine = Machine::new(&params, &blocks.list, &program.kernel, &inputs.stack, inputs.advice, MOST_CYCLES);
    machine = machine.with_stand_in(&chosen);
    machine.run(program.root).expect("the run ends");
    let outputs = machine.stack();
    let tables = fill(&blocks.list, &program.kernel, machine.log);
    std::fs::write(table, table_files::encode(&tables)).expect("the tables are written");
    let claim = Statement { digest: blocks.list[program.root].digest, kernel: program.kernel, inputs: inputs.stack, outputs };
    std::fs::write(statement, statements::written(&claim)).expect("the statement is written");
}
