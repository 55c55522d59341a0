//! The command `run` in plain Rust, for `run.sh` to compare with: a source is read, assembled and executed, and the
//! cycles and the visible cells are printed.
use reference::assembly::{Kernel, assemble};
use reference::commands::{Program, ran};
use reference::formats::inputs::Inputs;
use reference::machine::{Blocks, MOST_CYCLES};
use reference::permutation::{Params, State};

fn constants(from: u64) -> [State; 7] {
    std::array::from_fn(|k| std::array::from_fn(|i| from + 1000 * k as u64 + i as u64))
}

fn main() {
    let path = std::env::args().nth(1).expect("a source");
    let source = std::fs::read(path).expect("the source is read");
    let params = Params { first: constants(1), second: constants(7) };
    let tree = assemble(&params, &source, &Kernel::default()).expect("the source is assembled");
    let program = Program::in_blocks(Blocks::remembering(&params), tree, Kernel::default());
    let run = ran(&params, &program, &Inputs::default(), MOST_CYCLES).expect("the run ends");
    print!("{}", run.cycles());
    for cell in &run.outputs[..16] {
        print!(" {cell}");
    }
    println!();
}
