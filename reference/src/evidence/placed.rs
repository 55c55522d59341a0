//! Trees whose blocks have the places at which they are hashed.
use crate::batches::Batch;
use crate::field::Word;

/// A place in the hasher's table, counted from 1.
pub type Address = u64;

pub enum Tree {
    /// A block of which only the digest is known.
    Opaque(Word),
    Span(Address, Vec<Batch>),
    Join(Address, Box<Tree>, Box<Tree>),
    Split(Address, Box<Tree>, Box<Tree>),
    Loop(Address, Box<Tree>),
    Call(Address, Box<Tree>),
    Syscall(Address, Box<Tree>),
    /// Targets, of which no two have one digest, each with its digest.
    Dyn(Address, Vec<(Word, Tree)>),
}

/// Two places at which different inputs of one digest are hashed, the lower one first.
#[derive(Clone, Copy, Debug, PartialEq)]
pub struct Pair(pub Address, pub Address);

impl Pair {
    pub fn of(p: Address, q: Address) -> Pair {
        Pair(p.min(q), p.max(q))
    }
}

impl Tree {
    pub fn address(&self) -> Address {
        match self {
            Tree::Opaque(_) => 0,
            Tree::Span(address, _) | Tree::Join(address, ..) | Tree::Split(address, ..) => *address,
            Tree::Loop(address, _) | Tree::Call(address, _) | Tree::Syscall(address, _) | Tree::Dyn(address, _) => *address,
        }
    }
}
