//! Trees of blocks (docs/MACHINE.md). An assembled one has no block of which only the digest is known.
use crate::batches::Batch;
use crate::field::Word;
use crate::mixer::Mixing;
use crate::operations::{CALL, DYN, JOIN, LOOP, SPLIT, SYSCALL};
use crate::permutation::Params;
use crate::sponge::{Block, hashed, pair};
use std::collections::HashMap;

#[derive(Clone, Debug, PartialEq)]
pub enum Tree {
    Span(Vec<Batch>),
    Join(Box<Tree>, Box<Tree>),
    /// The first one runs for 1.
    Split(Box<Tree>, Box<Tree>),
    Loop(Box<Tree>),
    Call(Box<Tree>),
    Syscall(Box<Tree>),
    /// A dynamic block with its targets.
    Dyn(Vec<Tree>),
}

/// The digest of a tree. That of a dynamic block is the same whatever its targets are.
pub fn digest(params: &Params, tree: &Tree) -> Word {
    Digests::new(params).tree(tree)
}

/// Digests of blocks, each of which is computed once, whatever its copies.
pub struct Digests<'a> {
    params: &'a Params,
    spans: HashMap<Vec<Batch>, Word, Mixing>,
    parents: HashMap<(u8, Block), Word, Mixing>,
}

impl Digests<'_> {
    pub fn new(params: &Params) -> Digests<'_> {
        Digests { params, spans: HashMap::default(), parents: HashMap::default() }
    }

    pub fn tree(&mut self, tree: &Tree) -> Word {
        match tree {
            Tree::Span(batches) => self.span(batches),
            Tree::Join(first, second) => self.two(JOIN, first, second),
            Tree::Split(first, second) => self.two(SPLIT, first, second),
            Tree::Loop(body) => self.one(LOOP, body),
            Tree::Call(callee) => self.one(CALL, callee),
            Tree::Syscall(callee) => self.one(SYSCALL, callee),
            Tree::Dyn(_) => self.parent(DYN, [0; 8]),
        }
    }

    pub fn span(&mut self, batches: &[Batch]) -> Word {
        if let Some(digest) = self.spans.get(batches) {
            return *digest;
        }
        let digest = hashed(self.params, 0, batches);
        self.spans.insert(batches.to_vec(), digest);
        digest
    }

    /// The digest of a block that is hashed of its children's digests, or of zeros.
    pub fn parent(&mut self, code: u8, block: Block) -> Word {
        *self.parents.entry((code, block)).or_insert_with(|| hashed(self.params, code, &[block]))
    }

    fn one(&mut self, code: u8, child: &Tree) -> Word {
        let block = pair(self.tree(child), [0; 4]);
        self.parent(code, block)
    }

    fn two(&mut self, code: u8, first: &Tree, second: &Tree) -> Word {
        let block = pair(self.tree(first), self.tree(second));
        self.parent(code, block)
    }
}
