//! Two trees of one digest, merged into what both show.
use super::placed::{Address, Pair, Tree};
use crate::field::Word;
use std::mem;

/// Where hashes stand: the first block that is hashed at a place.
pub trait Hashes {
    fn first_block(&self, address: Address) -> &[u64];
}

impl Hashes for [[u64; 15]] {
    fn first_block(&self, address: Address) -> &[u64] {
        &self[address as usize - 1][7..]
    }
}

// Whether the first blocks that are hashed at two places agree.
fn agree(hashes: &(impl Hashes + ?Sized), p: Address, q: Address) -> Result<(), Pair> {
    if hashes.first_block(p) == hashes.first_block(q) { Ok(()) } else { Err(Pair::of(p, q)) }
}

/// What two trees of one digest show together, or two hashes that differ and have one digest. Of two dynamic blocks the first one's
/// targets come first, and each of the second is merged with the one of its digest or stands behind them.
pub fn merged(hashes: &(impl Hashes + ?Sized), a: Tree, b: Tree) -> Result<Tree, Pair> {
    Ok(match (a, b) {
        (Tree::Opaque(_), b) => b,
        (a, Tree::Opaque(_)) => a,
        (Tree::Span(p, a), Tree::Span(q, b)) => {
            if a != b {
                return Err(Pair::of(p, q));
            }
            Tree::Span(p, a)
        }
        (Tree::Join(p, a, b), Tree::Join(q, c, d)) => {
            agree(hashes, p, q)?;
            Tree::Join(p, boxed(hashes, a, c)?, boxed(hashes, b, d)?)
        }
        (Tree::Split(p, a, b), Tree::Split(q, c, d)) => {
            agree(hashes, p, q)?;
            Tree::Split(p, boxed(hashes, a, c)?, boxed(hashes, b, d)?)
        }
        (Tree::Loop(p, a), Tree::Loop(q, c)) => {
            agree(hashes, p, q)?;
            Tree::Loop(p, boxed(hashes, a, c)?)
        }
        (Tree::Call(p, a), Tree::Call(q, c)) => {
            agree(hashes, p, q)?;
            Tree::Call(p, boxed(hashes, a, c)?)
        }
        (Tree::Syscall(p, a), Tree::Syscall(q, c)) => {
            agree(hashes, p, q)?;
            Tree::Syscall(p, boxed(hashes, a, c)?)
        }
        (Tree::Dyn(p, mut targets), Tree::Dyn(_, later)) => {
            for target in later {
                add_target(hashes, &mut targets, target)?;
            }
            Tree::Dyn(p, targets)
        }
        (a, b) => return Err(Pair::of(a.address(), b.address())),
    })
}

// A target is merged with the one of its digest, or stands behind the others.
fn add_target(hashes: &(impl Hashes + ?Sized), targets: &mut Vec<(Word, Tree)>, (digest, tree): (Word, Tree)) -> Result<(), Pair> {
    match targets.iter_mut().find(|(known, _)| *known == digest) {
        Some((_, first)) => *first = merged(hashes, mem::replace(first, Tree::Opaque(digest)), tree)?,
        None => targets.push((digest, tree)),
    }
    Ok(())
}

// The same of trees in boxes, in the first box.
fn boxed(hashes: &(impl Hashes + ?Sized), mut a: Box<Tree>, b: Box<Tree>) -> Result<Box<Tree>, Pair> {
    let first = mem::replace(&mut *a, Tree::Opaque([0; 4]));
    *a = merged(hashes, first, *b)?;
    Ok(a)
}
