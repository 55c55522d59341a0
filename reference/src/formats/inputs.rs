//! Inputs: what a run is given.
use super::values::{TextCause, elements, listed, members, numbers};

pub const MOST_STACK: usize = 1024;

const MOST_ADVICE: usize = 1_048_576;

#[derive(Clone, Debug, Default, PartialEq)]
pub struct Inputs {
    /// The top first.
    pub stack: Vec<u64>,
    pub advice: Vec<u64>,
}

pub fn read(bytes: &[u8]) -> Result<Inputs, TextCause> {
    let members = members(bytes, 2)?;
    let (stack, advice) = (numbers(&members, "stack")?, numbers(&members, "advice")?);
    let inputs = Inputs { stack: elements(stack)?, advice: elements(advice)? };
    let is_short = inputs.stack.len() <= MOST_STACK && inputs.advice.len() <= MOST_ADVICE;
    if is_short { Ok(inputs) } else { Err(TextCause::Count) }
}

pub fn written(inputs: &Inputs) -> String {
    format!("{{\"advice\":[{}],\"stack\":[{}]}}", listed(&inputs.advice), listed(&inputs.stack))
}
