//! What a source says: procedures, whose bodies are lists of statements.
use super::instructions::Instruction;
use super::refusal::At;

pub enum Statement<'a> {
    Instruction(Instruction),
    If(Vec<Statement<'a>>, Vec<Statement<'a>>),
    While(Vec<Statement<'a>>),
    Repeat(u32, Vec<Statement<'a>>),
    Exec(At, &'a str),
    Call(At, &'a str),
    Syscall(At, &'a str),
    ProcRef(At, &'a str),
    DynExec(At),
}

#[derive(Clone, Copy, PartialEq)]
pub enum Kind {
    Own,
    Export,
    /// The body between `begin` and `end`.
    Main,
}

pub struct Procedure<'a> {
    pub name: &'a str,
    /// The place of `proc`, `export` or `begin`. One of the library is never refused, and its place says nothing.
    pub at: At,
    pub kind: Kind,
    pub locals: u64,
    pub body: Vec<Statement<'a>>,
}

/// A source that the first two passes found nothing in.
pub struct Source<'a> {
    /// In the order of the source, and behind a program's own those of the library that it may use; the last one of a program is its
    /// main one.
    pub procedures: Vec<Procedure<'a>>,
    /// The places at which constants are defined a second time.
    pub constants_again: Vec<At>,
}
