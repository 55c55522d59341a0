//! Why and where a source is refused.

/// A place in a source, counted from 1. A column counts bytes.
#[derive(Clone, Copy, Debug, PartialEq, Eq, PartialOrd, Ord)]
pub struct At {
    pub line: u32,
    pub column: u32,
}

/// A cause by its name. Of those of the third pass at one place the least decides.
#[derive(Clone, Copy, Debug, PartialEq, Eq, PartialOrd, Ord)]
pub enum Cause {
    Lexical,
    KernelBody,
    Unsupported,
    UnknownInstruction,
    Syntax,
    NumberRange,
    LocalsRange,
    RepeatRange,
    Duplicate,
    TooManyExports,
    UnknownProcedure,
    NotInKernel,
    Recursive,
    TooManyOps,
    TooDeep,
}

pub type Refused = (At, Cause);

/// The earlier of two refusals.
pub fn earlier(first: Option<Refused>, at: At, cause: Cause) -> Option<Refused> {
    Some(first.map_or((at, cause), |before| before.min((at, cause))))
}
