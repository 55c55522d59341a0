//! The evidence of a trace: the tree of the run that the rows show. A walk along the rows keeps a list of the blocks that are open. The
//! body of a loop is what its turns show of it together.
use super::merging::merged;
use super::placed::{Address, Pair, Tree};
use crate::batches::Batch;
use crate::field::Word;
use crate::operations::*;
use crate::trace::columns::*;
use crate::trace::{Row, Tables};

/// What an accepted trace shows.
pub struct Evidence {
    pub cycles: usize,
    /// What its rows take from the tape.
    pub tape: Vec<u64>,
    pub tree: Tree,
}

/// A block that was started and not ended: its code and its row, and what is known of its batches or its children.
struct Open {
    code: u8,
    row: usize,
    address: Address,
    batches: Vec<Batch>,
    first: Option<Tree>,
    second: Option<Tree>,
}

fn word(row: &Row, from: usize) -> Word {
    row[from..from + 4].try_into().expect("cells of a row")
}

fn batch(row: &Row) -> Batch {
    row[H..H + 8].try_into().expect("cells of a row")
}

// A child that ran.
fn ran(child: Option<Tree>) -> Box<Tree> {
    Box::new(child.expect("a child that ran"))
}

impl Open {
    // The tree of the block, where it ends.
    fn into_tree(self, main: &[Row]) -> Tree {
        let row = &main[self.row];
        let opaque = |from: usize| Box::new(Tree::Opaque(word(row, from)));
        match self.code {
            SPAN => Tree::Span(self.address, self.batches),
            JOIN => Tree::Join(self.address, ran(self.first), ran(self.second)),
            SPLIT if row[S] == 1 => Tree::Split(self.address, ran(self.first), opaque(H + 4)),
            SPLIT => Tree::Split(self.address, opaque(H), ran(self.first)),
            LOOP => Tree::Loop(self.address, self.first.map_or_else(|| opaque(H), Box::new)),
            CALL => Tree::Call(self.address, ran(self.first)),
            DYN => Tree::Dyn(self.address, vec![([3, 2, 1, 0].map(|j| row[S + j]), *ran(self.first))]),
            _ => Tree::Syscall(self.address, ran(self.first)),
        }
    }

    // A child of the block ended.
    fn take(&mut self, child: Tree, hasher: &[[u64; 15]]) -> Result<(), Pair> {
        match self.first.take() {
            None => self.first = Some(child),
            Some(body) if self.code == LOOP => self.first = Some(merged(hasher, body, child)?),
            first => (self.first, self.second) = (first, Some(child)),
        }
        Ok(())
    }
}

// The tree of all rows, by the codes of their operations.
fn tree_of(tables: &Tables, codes: &[u8]) -> Result<Tree, Pair> {
    let main = &tables.main;
    let mut open: Vec<Open> = Vec::new();
    for (i, code) in codes.iter().enumerate() {
        match *code {
            JOIN..=SYSCALL | DYN => {
                let batches = if *code == SPAN { vec![batch(&main[i])] } else { Vec::new() };
                open.push(Open { code: *code, row: i, address: main[i + 1][ADDR], batches, first: None, second: None });
            }
            RESPAN => open.last_mut().expect("an open span").batches.push(batch(&main[i])),
            END => {
                let tree = open.pop().expect("an open block").into_tree(main);
                match open.last_mut() {
                    Some(parent) => parent.take(tree, &tables.hasher)?,
                    None => return Ok(tree),
                }
            }
            _ => {}
        }
    }
    panic!("the outermost block of an accepted trace ends")
}

// What the rows take from the tape.
fn tape_of(main: &[Row], codes: &[u8]) -> Vec<u64> {
    let mut tape = Vec::new();
    for (i, code) in codes.iter().enumerate() {
        match *code {
            ADVPOP => tape.push(main[i + 1][S]),
            ADVPOPW => tape.extend(main[i + 1][S..S + 4].iter().rev()),
            _ => {}
        }
    }
    tape
}

/// The evidence of an accepted trace, by the codes of its main rows' operations.
pub fn evidence(tables: &Tables, codes: &[u8]) -> Result<Evidence, Pair> {
    let tree = tree_of(tables, codes)?;
    Ok(Evidence { cycles: codes.len() - 1, tape: tape_of(&tables.main, codes), tree })
}
