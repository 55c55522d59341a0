//! The blocks of trees in one list, with the rows of the hasher's table that hash them.
use crate::batches::Batch;
use crate::field::Word;
use crate::operations::{CALL, DYN, JOIN, LOOP, SPLIT, SYSCALL};
use crate::permutation::{Params, ROUNDS, State, round};
use crate::sponge::{Block as Input, digest_in, pair, start};
use crate::trees::Tree;
use std::collections::HashMap;

/// A span's batches, or the places of a block's children.
pub enum Parts {
    Span(Vec<Batch>),
    Join(usize, usize),
    Split(usize, usize),
    Loop(usize),
    Call(usize),
    Syscall(usize),
    Dyn(Vec<usize>),
}

/// A block with the eight elements that its rows show, and the rows of the hasher's table that hash it.
pub struct Block {
    pub parts: Parts,
    pub hash: Input,
    pub digest: Word,
    pub rows: Vec<[u64; 15]>,
}

/// The eight rows of a permutation. The state is behind it then.
pub fn permuted(params: &Params, mode: bool, cont: bool, more: bool, state: &mut State, rows: &mut Vec<[u64; 15]>) {
    for k in 0..=ROUNDS {
        let mut row = [0; 15];
        row[..3].copy_from_slice(&[mode.into(), cont.into(), (more && k == ROUNDS).into()]);
        row[3..].copy_from_slice(state);
        rows.push(row);
        if k < ROUNDS {
            *state = round(params, k, state);
        }
    }
}

fn hashed(params: &Params, domain: u8, blocks: &[Input]) -> (Vec<[u64; 15]>, Word) {
    let mut rows = Vec::with_capacity(8 * blocks.len());
    let mut state = start(domain);
    for (n, block) in blocks.iter().enumerate() {
        state[4..].copy_from_slice(block);
        permuted(params, false, n > 0, n + 1 < blocks.len(), &mut state, &mut rows);
    }
    (rows, digest_in(&state))
}

/// What a hash's rows are kept by.
type Known = HashMap<(u8, Vec<Input>), (Vec<[u64; 15]>, Word)>;

/// The blocks of trees, each behind its children.
pub struct Blocks<'a> {
    params: &'a Params,
    known: Option<Known>,
    pub list: Vec<Block>,
}

impl Blocks<'_> {
    pub fn new(params: &Params) -> Blocks<'_> {
        Blocks { params, known: None, list: Vec::new() }
    }

    /// The same, behind blocks that are there.
    pub fn behind(params: &Params, list: Vec<Block>) -> Blocks<'_> {
        Blocks { list, ..Blocks::new(params) }
    }

    /// The same, where a block is hashed once, whatever its copies.
    pub fn remembering(params: &Params) -> Blocks<'_> {
        Blocks { known: Some(HashMap::new()), ..Blocks::new(params) }
    }

    /// Adds the blocks of a tree, and gives the place of the outermost one.
    pub fn add(&mut self, tree: Tree) -> usize {
        match tree {
            Tree::Span(batches) => {
                let (rows, digest) = self.hashed(0, &batches);
                self.list.push(Block { parts: Parts::Span(batches), hash: [0; 8], digest, rows });
                self.list.len() - 1
            }
            Tree::Join(first, second) => self.two(JOIN, *first, *second, Parts::Join),
            Tree::Split(first, second) => self.two(SPLIT, *first, *second, Parts::Split),
            Tree::Loop(body) => self.one(LOOP, *body, Parts::Loop),
            Tree::Call(callee) => self.one(CALL, *callee, Parts::Call),
            Tree::Syscall(callee) => self.one(SYSCALL, *callee, Parts::Syscall),
            Tree::Dyn(targets) => {
                let targets = targets.into_iter().map(|target| self.add(target)).collect();
                self.push(DYN, [0; 4], [0; 4], Parts::Dyn(targets))
            }
        }
    }

    fn one(&mut self, code: u8, child: Tree, parts: fn(usize) -> Parts) -> usize {
        let child = self.add(child);
        self.push(code, self.list[child].digest, [0; 4], parts(child))
    }

    fn two(&mut self, code: u8, first: Tree, second: Tree, parts: fn(usize, usize) -> Parts) -> usize {
        let (first, second) = (self.add(first), self.add(second));
        self.push(code, self.list[first].digest, self.list[second].digest, parts(first, second))
    }

    fn push(&mut self, code: u8, first: Word, second: Word, parts: Parts) -> usize {
        let hash = pair(first, second);
        let (rows, digest) = self.hashed(code, &[hash]);
        self.list.push(Block { parts, hash, digest, rows });
        self.list.len() - 1
    }

    fn hashed(&mut self, domain: u8, inputs: &[Input]) -> (Vec<[u64; 15]>, Word) {
        let Some(known) = &mut self.known else { return hashed(self.params, domain, inputs) };
        let rows = known.entry((domain, inputs.to_vec())).or_insert_with(|| hashed(self.params, domain, inputs));
        rows.clone()
    }
}
