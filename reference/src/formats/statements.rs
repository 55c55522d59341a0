//! Statements: what is said to be proved of a run.
use super::inputs::MOST_STACK;
use super::values::{TextCause, elements, listed, members, numbers, text, texts};
use crate::field::{PRIME, Word};
use std::collections::HashSet;

const MOST_KERNEL: usize = 255;

const LEAST_OUTPUTS: usize = 16;

const MOST_OUTPUTS: usize = 525_311;

#[derive(Clone, Debug, PartialEq)]
pub struct Statement {
    pub digest: Word,
    pub kernel: Vec<Word>,
    /// The top first, as the outputs.
    pub inputs: Vec<u64>,
    pub outputs: Vec<u64>,
}

/// A word as 64 digits.
pub fn hex(word: &Word) -> String {
    word.iter().map(|element| format!("{element:016x}")).collect()
}

// The word of 64 digits of either case.
fn word(digits: &str) -> Result<Word, TextCause> {
    let is_form = digits.len() == 64 && digits.bytes().all(|digit| digit.is_ascii_hexdigit());
    let element = |i: usize| u64::from_str_radix(digits.get(16 * i..16 * i + 16)?, 16).ok();
    let word: Option<[u64; 4]> = if is_form { Some([0, 1, 2, 3].map(|i| element(i).unwrap_or(PRIME))) } else { None };
    word.filter(|word| word.iter().all(|element| *element < PRIME)).ok_or(TextCause::Digest)
}

pub fn read(bytes: &[u8]) -> Result<Statement, TextCause> {
    let members = members(bytes, 4)?;
    let (digest, kernel) = (text(&members, "digest")?, texts(&members, "kernel")?);
    let (inputs, outputs) = (numbers(&members, "inputs")?, numbers(&members, "outputs")?);
    let (inputs, outputs) = (elements(inputs)?, elements(outputs)?);
    let digest = word(digest)?;
    let kernel: Vec<Word> = kernel.into_iter().map(word).collect::<Result<_, _>>()?;
    if inputs.len() > MOST_STACK || kernel.len() > MOST_KERNEL || !(LEAST_OUTPUTS..=MOST_OUTPUTS).contains(&outputs.len()) {
        return Err(TextCause::Count);
    }
    if kernel.iter().collect::<HashSet<_>>().len() < kernel.len() {
        return Err(TextCause::Repeated);
    }
    Ok(Statement { digest, kernel, inputs, outputs })
}

pub fn written(statement: &Statement) -> String {
    let kernel: Vec<String> = statement.kernel.iter().map(|word| format!("\"{}\"", hex(word))).collect();
    format!(
        "{{\"digest\":\"{}\",\"inputs\":[{}],\"kernel\":[{}],\"outputs\":[{}]}}",
        hex(&statement.digest),
        listed(&statement.inputs),
        kernel.join(","),
        listed(&statement.outputs)
    )
}
