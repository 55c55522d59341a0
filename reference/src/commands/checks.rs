//! `check`: a table file is tested against a statement, and its evidence is written.
use super::answer::{Answer, Status, Step};
use super::assembling::Sources;
use super::files;
use super::words::Check;
use crate::checking::{Pieces, Refusal, compared, passed};
use crate::evidence::{Evidence, Pair, Sourced, evidence, sourced, sourced_text, text};
use crate::formats::statements::{Statement, hex};
use crate::permutation::Params;
use crate::trace::Tables;
use crate::trees::Tree;

/// What an accepted trace shows, or why it is refused.
pub fn accepted(params: &Params, tables: &Tables, statement: &Statement, pieces: usize) -> Result<Result<Evidence, Pair>, Refusal> {
    let (codes, buses) = passed(params, tables, statement, Pieces { low: 0, high: pieces, all: pieces })?;
    compared(&buses)?;
    Ok(evidence(tables, &codes))
}

/// How a trace that is refused is told.
pub fn refused(refusal: Refusal) -> Answer {
    Answer::new(Status::Refused, refusal)
}

/// What an accepted trace shows to one who has the tree of a program, whose digest is to be the statement's.
pub fn accepted_for(params: &Params, tables: &Tables, statement: &Statement, pieces: usize, tree: Tree) -> Step<Sourced> {
    let other_program = |digest| {
        let line = format!("other program {} {}", hex(&statement.digest), hex(&digest));
        Answer::new(Status::OtherProgram, line)
    };
    let shown = accepted(params, tables, statement, pieces).map_err(refused)?;
    sourced(params, &tables.hasher, shown, tree, statement.digest).map_err(other_program)
}

/// Writes evidence for a program, and gives the line that tells of it.
pub fn write_sourced(name: &str, found: &Sourced) -> Step<String> {
    let text = sourced_text(found);
    files::write(name, &text)?;
    Ok(format!("accepted {}", text.lines().next().unwrap_or("")))
}

pub fn check(words: &Check) -> Step<Answer> {
    let params = files::params(words.params)?;
    let tables = files::tables(words.table)?;
    let statement = files::statement(words.statement)?;
    let source = words.source.map(|names| Sources::read(names)?.assembled(&params, names)).transpose()?;
    if let Some((tree, _)) = source {
        let found = accepted_for(&params, &tables, &statement, words.pieces, tree)?;
        return Ok(Answer::new(Status::Done, write_sourced(words.evidence, &found)?));
    }
    let shown = accepted(&params, &tables, &statement, words.pieces).map_err(refused)?;
    files::write(words.evidence, text(&shown))?;
    let line = match shown {
        Ok(_) => String::from("accepted run"),
        Err(Pair(first, second)) => format!("accepted pair {first} {second}"),
    };
    Ok(Answer::new(Status::Done, line))
}
