//! Evidence for a source: the tree of a run is merged with that of the source, whose blocks have places behind the hasher's table.
use super::merging::{Hashes, merged};
use super::placed::{Address, Pair, Tree as Placed};
use super::walking::Evidence;
use crate::field::Word;
use crate::mixer::Mixing;
use crate::operations::*;
use crate::permutation::Params;
use crate::sponge::{Block, pair};
use crate::trees::{Digests, Tree};
use std::collections::HashSet;

/// What an accepted trace shows to one who has its source's tree.
pub enum Sourced {
    Ran(Evidence),
    /// Two places of the file.
    InFile(Pair),
    /// A place of the file and a block of the source, by its number in preorder.
    InSource(Address, u64),
}

/// What is hashed in a file, and behind its last place the first block of what each block of a source is hashed of.
struct Behind<'a> {
    rows: &'a [[u64; 15]],
    blocks: Vec<Block>,
}

impl Hashes for Behind<'_> {
    fn first_block(&self, address: Address) -> &[u64] {
        match (address as usize - 1).checked_sub(self.rows.len()) {
            Some(place) => &self.blocks[place],
            None => self.rows.first_block(address),
        }
    }
}

/// Numbers blocks in preorder.
struct Numbering<'a> {
    behind: Behind<'a>,
    digests: Digests<'a>,
}

impl Numbering<'_> {
    // The tree with places, and its digest.
    fn numbered(&mut self, tree: Tree) -> (Placed, Word) {
        // what it is hashed of is known behind its children
        let place = self.behind.blocks.len();
        self.behind.blocks.push([0; 8]);
        let at = (self.behind.rows.len() + place) as Address + 1;
        let (tree, input, digest) = match tree {
            Tree::Span(batches) => {
                let digest = self.digests.span(&batches);
                let first = batches[0];
                (Placed::Span(at, batches), first, digest)
            }
            Tree::Join(first, second) => self.two(JOIN, *first, *second, |a, b| Placed::Join(at, a, b)),
            Tree::Split(first, second) => self.two(SPLIT, *first, *second, |a, b| Placed::Split(at, a, b)),
            Tree::Loop(body) => self.one(LOOP, *body, |a| Placed::Loop(at, a)),
            Tree::Call(callee) => self.one(CALL, *callee, |a| Placed::Call(at, a)),
            Tree::Syscall(callee) => self.one(SYSCALL, *callee, |a| Placed::Syscall(at, a)),
            Tree::Dyn(targets) => (Placed::Dyn(at, self.targets(targets)), [0; 8], self.digests.parent(DYN, [0; 8])),
        };
        self.behind.blocks[place] = input;
        (tree, digest)
    }

    fn one(&mut self, code: u8, child: Tree, block: impl FnOnce(Box<Placed>) -> Placed) -> (Placed, Block, Word) {
        let (child, digest) = self.numbered(child);
        let input = pair(digest, [0; 4]);
        (block(Box::new(child)), input, self.digests.parent(code, input))
    }

    fn two(&mut self, code: u8, a: Tree, b: Tree, block: impl FnOnce(Box<Placed>, Box<Placed>) -> Placed) -> (Placed, Block, Word) {
        let (first, one) = self.numbered(a);
        let (second, other) = self.numbered(b);
        let input = pair(one, other);
        (block(Box::new(first), Box::new(second)), input, self.digests.parent(code, input))
    }

    // All targets are numbered, and of those of one digest the first is kept, since no other can be called.
    fn targets(&mut self, targets: Vec<Tree>) -> Vec<(Word, Placed)> {
        let mut known: HashSet<Word, Mixing> = HashSet::default();
        let numbered = targets.into_iter().map(|target| self.numbered(target));
        numbered.map(|(tree, digest)| (digest, tree)).filter(|(digest, _)| known.insert(*digest)).collect()
    }
}

/// What the evidence of a trace is, with the rows of its hasher's table, beside the tree of a source; or the source's digest, where it
/// is not this one.
pub fn sourced(
    params: &Params,
    rows: &[[u64; 15]],
    evidence: Result<Evidence, Pair>,
    source: Tree,
    digest: Word,
) -> Result<Sourced, Word> {
    let behind = Behind { rows, blocks: Vec::new() };
    let mut numbering = Numbering { behind, digests: Digests::new(params) };
    let (source, own) = numbering.numbered(source);
    if own != digest {
        return Err(own);
    }
    let Evidence { cycles, tape, tree } = match evidence {
        Ok(evidence) => evidence,
        Err(pair) => return Ok(Sourced::InFile(pair)),
    };
    Ok(match merged(&numbering.behind, source, tree) {
        Ok(tree) => Sourced::Ran(Evidence { cycles, tape, tree }),
        Err(Pair(file, node)) => Sourced::InSource(file, node - rows.len() as u64),
    })
}
