//! Lists: the files of links that go on from one another.
use crate::commands::is_file_name;

/// How many links a list has at most.
const MOST_LINKS: usize = 64;

#[derive(Clone, Copy, Debug, PartialEq, Eq)]
pub enum Cause {
    Count,
    Line,
    Output,
}

/// A line, counted from 1, and what is wrong with it.
pub type Malformed = (usize, Cause);

/// What a list is for.
pub struct Purpose<'a> {
    /// How many names a line has that are read.
    pub read: usize,
    /// How many stand behind them that are written.
    pub written: usize,
    /// The names among the words, and whether each is written.
    pub words: &'a [(&'a str, bool)],
}

/// The names of each line.
pub fn read<'a>(bytes: &'a [u8], purpose: &Purpose<'a>) -> Result<Vec<Vec<&'a str>>, Malformed> {
    let mut rest = bytes;
    let mut links = Vec::new();
    let mut known: Vec<(&str, bool)> = purpose.words.to_vec();
    loop {
        let line = links.len() + 1;
        if rest.is_empty() && line > 1 {
            return Ok(links);
        }
        if rest.is_empty() || line > MOST_LINKS {
            return Err((line, Cause::Count));
        }
        let (names, later) = first_line(rest, purpose.read + purpose.written).ok_or((line, Cause::Line))?;
        for (place, name) in names.iter().enumerate() {
            let is_written = place >= purpose.read;
            if known.iter().any(|(other, is)| other == name && (is_written || *is)) {
                return Err((line, Cause::Output));
            }
            known.push((name, is_written));
        }
        links.push(names);
        rest = later;
    }
}

// So many names of a line, and the bytes behind it.
fn first_line(bytes: &[u8], count: usize) -> Option<(Vec<&str>, &[u8])> {
    let end = bytes.iter().position(|byte| *byte == b'\n')?;
    let names: Vec<&str> = std::str::from_utf8(&bytes[..end]).ok()?.split(' ').collect();
    let is_form = names.len() == count && names.iter().all(|name| is_file_name(name));
    is_form.then_some((names, &bytes[end + 1..]))
}
