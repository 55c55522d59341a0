//! `member`: a table file is tested against a statement and the program that walks a Merkle path, in the place of a source's.
use super::answer::{Answer, Status, Step};
use super::checks::{accepted_for, write_sourced};
use super::files;
use super::words::Member;
use crate::assembly::{Kernel, assemble};
use crate::evidence::Sourced;
use crate::formats::statements::hex;
use crate::permutation::Params;
use crate::trees::Tree;

// The tree of the program that walks a path of so many steps.
fn walks(params: &Params, depth: u64) -> Tree {
    let source = format!("begin repeat.{depth} padw adv_loadw adv_push.1 cswapw hmerge end assert_eqw end");
    assemble(params, source.as_bytes(), &Kernel::default()).expect("the program of a depth")
}

// The digits of a word of the stack, 0 the one on top. Below the inputs stand zeros.
fn word_text(inputs: &[u64], word: usize) -> String {
    let cell = |place: usize| inputs.get(place).copied().unwrap_or(0);
    hex(&[3, 2, 1, 0].map(|j| cell(4 * word + j)))
}

pub fn member(words: &Member) -> Step<Answer> {
    let params = files::params(words.params)?;
    let tables = files::tables(words.table)?;
    let statement = files::statement(words.statement)?;
    let tree = walks(&params, words.depth);
    let found = accepted_for(&params, &tables, &statement, words.pieces, tree)?;
    let accepted = write_sourced(words.evidence, &found)?;
    let line = match found {
        Sourced::Ran(_) => format!("member {} {}", word_text(&statement.inputs, 0), word_text(&statement.inputs, 1)),
        _ => accepted,
    };
    Ok(Answer::new(Status::Done, line))
}
