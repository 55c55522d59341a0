//! The trees of procedures whose names are sound and whose sizes are small enough.
use super::expansion::{expand, literal};
use super::linking::Kernel;
use super::names::{Names, marked, reached};
use super::syntax::{Procedure, Source, Statement};
use crate::batches::{Item, pack};
use crate::field::{PRIME, Word};
use crate::operations::{FMPUPDATE, NOOP};
use crate::permutation::Params;
use crate::trees::{Tree, digest};

/// A part of a list.
#[derive(Clone)]
enum Piece {
    Operation(Item),
    Whole(Tree),
}

/// What makes the trees of a source's procedures.
pub struct Builder<'a> {
    source: &'a Source<'a>,
    names: &'a Names<'a>,
    kernel: &'a Kernel,
    /// By the place of a procedure its digest, where a procref asks for it.
    digests: Vec<Word>,
    /// The trees of all targets, where there is a dynamic block.
    targets: Vec<Tree>,
}

impl<'a> Builder<'a> {
    pub fn new(source: &'a Source<'a>, names: &'a Names<'a>, kernel: &'a Kernel) -> Builder<'a> {
        Builder { source, names, kernel, digests: Vec::new(), targets: Vec::new() }
    }

    /// Makes what the procrefs and the dynamic blocks of a program stand for: each target's tree once, and its digest.
    pub fn refer(&mut self, params: &Params) {
        let Names { graph, referred, targets, order, is_below_targets, .. } = self.names;
        let main = graph.len() - 1;
        let is_used = reached(graph, &[main]);
        let dispatches = self.names.is_dynamic.iter().zip(&is_used).any(|(is_dynamic, is_used)| *is_dynamic && *is_used);
        let starts: Vec<usize> = targets.iter().copied().filter(|_| dispatches).chain([main]).collect();
        let is_used = reached(graph, &starts);
        let asking = referred.iter().zip(&is_used).filter(|(_, is_used)| **is_used);
        let is_asked = marked(graph.len(), &asking.flat_map(|(places, _)| places).copied().collect::<Vec<usize>>());
        let is_kept = marked(graph.len(), &starts[..starts.len() - 1]);
        let mut trees: Vec<Option<Tree>> = vec![None; graph.len()];
        self.digests = vec![[0; 4]; graph.len()];
        for place in order.iter().copied().filter(|place| is_below_targets[*place]) {
            if !is_asked[place] && !is_kept[place] {
                continue;
            }
            let tree = self.procedure(place);
            if is_asked[place] {
                self.digests[place] = digest(params, &tree);
            }
            trees[place] = is_kept[place].then_some(tree);
        }
        if dispatches {
            self.targets = targets.iter().map(|place| trees[*place].take().expect("a target's tree")).collect();
        }
    }

    /// The tree of a procedure, by its place.
    pub fn procedure(&self, place: usize) -> Tree {
        let mut pieces = Vec::new();
        self.add_procedure(&self.source.procedures[place], &mut pieces);
        tree_of(pieces)
    }

    fn body(&self, body: &[Statement]) -> Tree {
        let mut pieces = Vec::new();
        self.add(body, &mut pieces);
        tree_of(pieces)
    }

    fn add_procedure(&self, procedure: &Procedure, out: &mut Vec<Piece>) {
        if procedure.locals == 0 {
            return self.add(&procedure.body, out);
        }
        out.extend(moves_frame(procedure.locals));
        self.add(&procedure.body, out);
        out.extend(moves_frame(PRIME - procedure.locals));
    }

    fn add(&self, body: &[Statement], out: &mut Vec<Piece>) {
        let mut items = Vec::new();
        for statement in body {
            match statement {
                Statement::Instruction(instruction) => {
                    expand(instruction, &mut items);
                    out.extend(items.drain(..).map(Piece::Operation));
                }
                Statement::If(first, second) => {
                    let (first, second) = (self.body(first), self.body(second));
                    out.push(Piece::Whole(Tree::Split(Box::new(first), Box::new(second))));
                }
                Statement::While(turn) => out.push(Piece::Whole(Tree::Loop(Box::new(self.body(turn))))),
                Statement::Repeat(count, turn) => {
                    let mut pieces = Vec::new();
                    self.add(turn, &mut pieces);
                    (0..*count).for_each(|_| out.extend_from_slice(&pieces));
                }
                Statement::Exec(_, name) => self.add_procedure(&self.source.procedures[self.names.place(name)], out),
                Statement::Call(_, name) => {
                    let callee = self.procedure(self.names.place(name));
                    out.push(Piece::Whole(Tree::Call(Box::new(callee))));
                }
                Statement::Syscall(_, name) => {
                    let callee = self.kernel.known(name).tree.clone();
                    out.push(Piece::Whole(Tree::Syscall(Box::new(callee))));
                }
                Statement::ProcRef(_, name) => {
                    let digest = self.digests[self.names.place(name)];
                    out.extend(digest.map(|element| Piece::Operation(literal(element))));
                }
                Statement::DynExec(_) => out.push(Piece::Whole(Tree::Dyn(self.targets.clone()))),
            }
        }
    }
}

// What adds a number to the frame pointer.
fn moves_frame(number: u64) -> [Piece; 2] {
    [Piece::Operation(literal(number)), Piece::Operation(Item { code: FMPUPDATE, immediate: 0 })]
}

// Neighbouring operations are one span, and blocks are joined in pairs, level by level.
fn tree_of(pieces: Vec<Piece>) -> Tree {
    let (mut level, mut run) = (Vec::new(), Vec::new());
    for piece in pieces {
        match piece {
            Piece::Operation(item) => run.push(item),
            Piece::Whole(tree) => {
                end_run(&mut run, &mut level);
                level.push(tree);
            }
        }
    }
    end_run(&mut run, &mut level);
    while level.len() > 1 {
        let mut next = Vec::with_capacity(level.len().div_ceil(2));
        let mut blocks = level.into_iter();
        while let Some(first) = blocks.next() {
            next.push(match blocks.next() {
                Some(second) => Tree::Join(Box::new(first), Box::new(second)),
                None => first,
            });
        }
        level = next;
    }
    level.pop().unwrap_or_else(|| Tree::Span(pack(&[Item { code: NOOP, immediate: 0 }])))
}

fn end_run(run: &mut Vec<Item>, level: &mut Vec<Tree>) {
    if !run.is_empty() {
        level.push(Tree::Span(pack(run)));
        run.clear();
    }
}
