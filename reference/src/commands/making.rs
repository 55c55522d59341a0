//! `make`: a workload is made, and its run is checked.
use super::answer::{Answer, Status, Step};
use super::checks::{accepted, refused};
use super::files;
use super::runs::{Program, Ran, outputs_line, ran, stopped};
use super::words::Make;
use crate::assembly::{Kernel, assemble};
use crate::formats::inputs;
use crate::formats::statements::Statement;
use crate::machine::MOST_CYCLES;
use crate::trace::fill;
use crate::workload;

pub fn make(words: &Make) -> Step<Answer> {
    let params = files::params(words.params)?;
    let source = workload::source(words.turns);
    let inputs = workload::inputs(words.turns);
    let tree = assemble(&params, source.as_bytes(), &Kernel::default()).expect("a workload's source");
    let program = Program::of(&params, tree, Kernel::default());
    let run = ran(&params, &program, &inputs, MOST_CYCLES).map_err(|stop| stopped(stop, MOST_CYCLES))?;
    let cycles = run.cycles();
    let Ran { log, outputs } = run;
    let tables = fill(&program.blocks, &[], log);
    let statement = Statement { digest: program.digest(), kernel: Vec::new(), inputs: Vec::new(), outputs };
    let _ = accepted(&params, &tables, &statement, 1).map_err(refused)?;
    files::write(words.source, source)?;
    files::write(words.inputs, inputs::written(&inputs))?;
    Ok(Answer::new(Status::Done, format!("cycles {cycles}\n{}\naccepted", outputs_line(&statement.outputs))))
}
