//! `hash`: the digest of numbers.
use super::answer::{Answer, Status, Step};
use super::files;
use crate::formats::statements::hex;
use crate::sponge::hashed;

pub fn hash(params: &str, numbers: &str) -> Step<Answer> {
    let params = files::params(params)?;
    let blocks = files::numbers(numbers)?;
    Ok(Answer::new(Status::Done, format!("digest {}", hex(&hashed(&params, 0, &blocks)))))
}
