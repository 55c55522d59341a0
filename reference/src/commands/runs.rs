//! `run`: a program runs, and its trace and statement are written.
use super::answer::{Answer, Status, Step};
use super::assembling::Sources;
use super::files;
use super::words::Run;
use crate::assembly::Kernel;
use crate::field::Word;
use crate::formats::inputs::Inputs;
use crate::formats::statements::{self, Statement};
use crate::formats::table_files::encode;
use crate::machine::{Block, Blocks, Log, Machine, Stop};
use crate::permutation::Params;
use crate::trace::fill;
use crate::trees::Tree;

/// A program that can run: the blocks of its kernel and of its tree, the place of the tree's root, and the kernel's digests, each once.
pub struct Program {
    pub blocks: Vec<Block>,
    pub root: usize,
    pub kernel: Vec<Word>,
}

impl Program {
    pub fn of(params: &Params, tree: Tree, kernel: Kernel) -> Program {
        Program::in_blocks(Blocks::new(params), tree, kernel)
    }

    /// The same, whose blocks are put behind others.
    pub fn in_blocks(mut blocks: Blocks, tree: Tree, kernel: Kernel) -> Program {
        let mut digests = Vec::new();
        for export in kernel.exports {
            let place = blocks.add(export.tree);
            let digest = blocks.list[place].digest;
            if !digests.contains(&digest) {
                digests.push(digest);
            }
        }
        let root = blocks.add(tree);
        Program { blocks: blocks.list, root, kernel: digests }
    }

    pub fn digest(&self) -> Word {
        self.blocks[self.root].digest
    }
}

/// A run that ended.
pub struct Ran {
    pub log: Log,
    pub outputs: Vec<u64>,
}

impl Ran {
    pub fn cycles(&self) -> usize {
        self.log.events.len() - 1
    }
}

/// Runs a program from its inputs.
pub fn ran(params: &Params, program: &Program, inputs: &Inputs, limit: u32) -> Result<Ran, Stop> {
    let advice = inputs.advice.clone();
    let mut machine = Machine::new(params, &program.blocks, &program.kernel, &inputs.stack, advice, limit);
    machine.run(program.root)?;
    let outputs = machine.stack();
    Ok(Ran { log: machine.log, outputs })
}

/// How a run that has no end is told.
pub fn stopped(stop: Stop, limit: u32) -> Answer {
    match stop {
        Stop::Trap { clock, cause } => Answer::new(Status::Trap, format!("trap {clock} {cause:?}")),
        Stop::OutOfCycles => Answer::new(Status::OutOfCycles, format!("out of cycles {limit}")),
    }
}

/// `outputs`, and the cells of a stack.
pub fn outputs_line(outputs: &[u64]) -> String {
    let cells: String = outputs.iter().map(|cell| format!(" {cell}")).collect();
    format!("outputs{cells}")
}

/// Writes the table file of a run, then its statement, and gives the stack that it left.
pub fn write_run(program: Program, inputs: Vec<u64>, ran: Ran, table: &str, statement: &str) -> Step<Vec<u64>> {
    let digest = program.digest();
    let Ran { log, outputs } = ran;
    let tables = fill(&program.blocks, &program.kernel, log);
    files::write(table, encode(&tables))?;
    let claim = Statement { digest, kernel: program.kernel, inputs, outputs };
    files::write(statement, statements::written(&claim))?;
    Ok(claim.outputs)
}

pub fn run(words: &Run) -> Step<Answer> {
    let params = files::params(words.params)?;
    let source = files::source(words.source.source)?;
    let inputs = files::inputs(words.inputs)?;
    let sources = Sources::with_kernel(source, words.source)?;
    let (tree, kernel) = sources.assembled(&params, words.source)?;
    let program = Program::of(&params, tree, kernel);
    let ran = ran(&params, &program, &inputs, words.limit).map_err(|stop| stopped(stop, words.limit))?;
    let cycles = ran.cycles();
    let outputs = write_run(program, inputs.stack, ran, words.table, words.statement)?;
    Ok(Answer::new(Status::Done, format!("cycles {cycles}\n{}", outputs_line(&outputs))))
}
