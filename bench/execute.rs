//! Runs of programs in plain Rust, for `execute.sh` to compare with: trees of no source, which a machine executes that keeps the state
//! before each cycle, hashes a block once whatever its copies, and moves the cells that a call hides.
use reference::assembly::Kernel;
use reference::commands::{Program, ran};
use reference::field::PRIME;
use reference::formats::inputs::Inputs;
use reference::machine::{Blocks, MOST_CYCLES};
use reference::operations::*;
use reference::permutation::{Params, State};
use reference::trees::Tree;
use std::time::Instant;

const MOVUP3: u8 = move_up(3);
const DUP1: u8 = copy_of(1);

fn group(codes: &[u8]) -> u64 {
    codes.iter().rev().fold(0, |number, code| 128 * number + u64::from(*code))
}

const MIXED: [u8; 9] = [PAD, INCR, ADD, DUP0, MUL, DUP1, SWAP, DROP, INCR];

const PUSHING: [u8; 9] = [PUSH, ADD, DUP0, MUL, SWAP, DUP1, ADD, SWAP, MOVUP3];

const U32: [u8; 9] = [PAD, PAD, U32ADD, DROP, DROP, MOVUP3, SWAP, DUP0, DROP];

const MEMORY: [u8; 9] = [DUP0, PAD, MSTORE, DROP, PAD, MLOAD, DROP, SWAP, INCR];

const SQUARING: [u8; 9] = [PAD, INCR, ADD, DUP0, MUL, DUP0, INCR, SWAP, DROP];

const COUNTING: [u8; 7] = [SWAP, PUSH, ADD, SWAP, DUP1, EQZ, NOT];

// 63 operations of several kinds.
fn straight() -> Tree {
    let batch = [
        group(&PUSHING),
        7,
        group(&MIXED),
        group(&U32),
        group(&MIXED),
        group(&MEMORY),
        group(&MIXED),
        group(&MIXED),
    ];
    Tree::Span(vec![batch; 7800])
}

// 61 operations a turn, of which the last ones count down what is below the top.
fn counting() -> Tree {
    let batch = [
        group(&SQUARING),
        group(&SQUARING),
        group(&SQUARING),
        group(&SQUARING),
        group(&SQUARING),
        group(&SQUARING),
        group(&COUNTING),
        PRIME - 1,
    ];
    Tree::Loop(Box::new(Tree::Span(vec![batch])))
}

fn join(first: Tree, second: Tree) -> Tree {
    Tree::Join(Box::new(first), Box::new(second))
}

// So many zeros below two cells, and calls until the second of them is counted down.
fn calls(zeros: usize) -> Tree {
    let pads = [group(&[PAD; 9]), 0, 0, 0, 0, 0, 0, 0];
    let push = [group(&[PUSH, PAD, PUSH]), 20000, 1, 0, 0, 0, 0, 0];
    let callee = Tree::Call(Box::new(Tree::Span(vec![[group(&[INCR]), 0, 0, 0, 0, 0, 0, 0]])));
    let count = Tree::Span(vec![[group(&COUNTING), PRIME - 1, 0, 0, 0, 0, 0, 0]]);
    let mut batches = vec![pads; zeros / 9];
    batches.push(push);
    join(Tree::Span(batches), Tree::Loop(Box::new(join(callee, count))))
}

fn balanced(height: u32) -> Tree {
    if height == 0 {
        Tree::Span(vec![[group(&[INCR]), 0, 0, 0, 0, 0, 0, 0]])
    } else {
        join(balanced(height - 1), balanced(height - 1))
    }
}

fn constants(from: u64) -> [State; 7] {
    std::array::from_fn(|k| std::array::from_fn(|i| from + 1000 * k as u64 + i as u64))
}

// Prints a case's name, its time in microseconds, its cycles, and what it came to.
fn time(name: &str, tree: Tree, stack: &[u64]) {
    let params = Params { first: constants(1), second: constants(7) };
    let inputs = Inputs { stack: stack.to_vec(), advice: Vec::new() };
    let start = Instant::now();
    let program = Program::in_blocks(Blocks::remembering(&params), tree, Kernel::default());
    let run = ran(&params, &program, &inputs, MOST_CYCLES).expect("the run ends");
    let micros = start.elapsed().as_micros();
    println!("{name} {micros} {} {} {}", run.cycles(), run.outputs.len(), run.outputs[0]);
}

fn run(name: &str) {
    match name {
        "straight" => time(name, straight(), &[5, 7]),
        "loop" => time(name, counting(), &[1, 5, 7800]),
        "calls_16" => time(name, calls(0), &[]),
        "calls_10000" => time(name, calls(10000), &[]),
        "calls_100000" => time(name, calls(100000), &[]),
        "equal_spans" => time(name, balanced(16), &[]),
        _ => println!("no such case"),
    }
}

fn main() {
    for name in std::env::args().skip(1) {
        for _ in 0..5 {
            run(&name);
        }
    }
}
