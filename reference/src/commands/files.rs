//! Files: read up to a length and tested against their form, or written.
use super::answer::{Answer, Status, Step};
use crate::formats::inputs::Inputs;
use crate::formats::statements::Statement;
use crate::formats::{decimals, inputs, statements, table_files};
use crate::permutation::Params;
use crate::trace::Tables;
use std::fmt::Debug;
use std::fs::{self, File};
use std::io::{ErrorKind, Read};

const MOST_PARAMS: u64 = 4096;
const MOST_NUMBERS: u64 = 262_144;
const MOST_SOURCE: u64 = 1_048_576;
const MOST_TABLES: u64 = 1_073_741_824;
const MOST_INPUTS: u64 = 33_554_432;
const MOST_STATEMENT: u64 = 16_777_216;
const MOST_LIST: u64 = 65_536;

fn bytes_of(name: &str, most: u64) -> Step<Vec<u8>> {
    let mut bytes = Vec::new();
    let read = File::open(name).and_then(|file| {
        let length = file.metadata().map_or(0, |data| data.len());
        bytes.reserve(length.min(most) as usize + 1);
        file.take(most + 1).read_to_end(&mut bytes)
    });
    match read {
        Ok(length) if length as u64 > most => Err(Answer::new(Status::TooLong, format!("too long {name}"))),
        Ok(_) => Ok(bytes),
        Err(error) if error.kind() == ErrorKind::NotFound => Err(Answer::new(Status::Missing, format!("missing {name}"))),
        Err(_) => Err(Answer::new(Status::ReadFault, format!("read fault {name}"))),
    }
}

/// That a file is not of its form.
pub fn malformed(name: &str, cause: impl Debug) -> Answer {
    Answer::new(Status::Malformed, format!("malformed {name} {cause:?}"))
}

/// The same, by a line of it.
pub fn malformed_line(name: &str, (line, cause): (usize, impl Debug)) -> Answer {
    Answer::new(Status::Malformed, format!("malformed {name} line {line} {cause:?}"))
}

pub fn params(name: &str) -> Step<Params> {
    decimals::params(&bytes_of(name, MOST_PARAMS)?).map_err(|bad| malformed_line(name, bad))
}

/// Blocks of numbers.
pub fn numbers(name: &str) -> Step<Vec<[u64; 8]>> {
    decimals::numbers(&bytes_of(name, MOST_NUMBERS)?).map_err(|bad| malformed_line(name, bad))
}

/// A source, which is read without a test.
pub fn source(name: &str) -> Step<Vec<u8>> {
    bytes_of(name, MOST_SOURCE)
}

pub fn tables(name: &str) -> Step<Tables> {
    let bytes = bytes_of(name, MOST_TABLES)?;
    let malformed = |(offset, cause)| Answer::new(Status::Malformed, format!("malformed {name} offset {offset} {cause:?}"));
    table_files::decode(&bytes).map_err(malformed)
}

pub fn inputs(name: &str) -> Step<Inputs> {
    inputs::read(&bytes_of(name, MOST_INPUTS)?).map_err(|cause| malformed(name, cause))
}

pub fn statement(name: &str) -> Step<Statement> {
    statements::read(&bytes_of(name, MOST_STATEMENT)?).map_err(|cause| malformed(name, cause))
}

pub fn list(name: &str) -> Step<Vec<u8>> {
    bytes_of(name, MOST_LIST)
}

/// Writes a file. Of one that could not be written whole a front may stand.
pub fn write(name: &str, bytes: impl AsRef<[u8]>) -> Step<()> {
    fs::write(name, bytes).map_err(|_| Answer::new(Status::WriteFault, format!("write fault {name}")))
}
