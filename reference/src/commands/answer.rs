//! How a command ends: with a status, and what it prints.

/// The statuses by their numbers. Memory that is refused, 12, is not among them: plain Rust ends the process there.
#[derive(Clone, Copy, Debug, PartialEq, Eq)]
#[repr(u8)]
pub enum Status {
    Done = 0,
    Refused = 1,
    Usage = 2,
    Source = 3,
    Trap = 4,
    OutOfCycles = 5,
    Missing = 6,
    ReadFault = 7,
    WriteFault = 8,
    PrintFault = 9,
    Malformed = 10,
    TooLong = 11,
    OtherProgram = 14,
    BrokenLink = 15,
}

#[derive(Clone, Debug, PartialEq, Eq)]
pub struct Answer {
    pub status: Status,
    /// One line or more, each ended by a line feed.
    pub lines: String,
}

/// What a step gives, or how the command ends at it.
pub type Step<T> = Result<T, Answer>;

impl Answer {
    pub fn new(status: Status, line: impl AsRef<str>) -> Answer {
        Answer { status, lines: format!("{}\n", line.as_ref()) }
    }

    /// The same, told of a link.
    pub fn of_link(self, link: usize) -> Answer {
        Answer { lines: format!("link {link} {}", self.lines), ..self }
    }
}
