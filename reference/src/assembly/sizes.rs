//! How many operations the trees of procedures have and how high they are, without the trees.
use super::expansion::expand;
use super::linking::Kernel;
use super::names::Names;
use super::refusal::{Cause, Refused, earlier};
use super::syntax::{Procedure, Source, Statement};

const MOST_OPERATIONS: u64 = 524_288;

const MOST_NESTING: u32 = 1024;

/// The size of a block.
#[derive(Clone, Copy, Default)]
pub struct Extent {
    pub operations: u64,
    pub height: u32,
}

/// The size of a list of operations and blocks.
#[derive(Clone, Default)]
struct Size {
    operations: u64,
    /// The heights of the blocks, where 0 is a run of operations.
    parts: Vec<u32>,
}

impl Size {
    fn add(&mut self, operations: u64, parts: &[u32]) {
        self.operations += operations;
        if self.operations > MOST_OPERATIONS {
            self.operations = MOST_OPERATIONS + 1;
            self.parts.clear();
            return;
        }
        let meets = self.parts.last() == Some(&0) && parts.first() == Some(&0);
        self.parts.extend_from_slice(&parts[usize::from(meets)..]);
    }

    fn add_block(&mut self, block: Extent) {
        self.add(block.operations, &[block.height]);
    }

    // The size of the list's tree.
    fn tree(&self) -> Extent {
        let mut level: Vec<u32> = self.parts.iter().map(|height| (*height).max(1)).collect();
        while level.len() > 1 {
            level = level.chunks(2).map(|pair| if let [a, b] = pair { 1 + a.max(b) } else { pair[0] }).collect();
        }
        Extent { operations: self.operations.max(1), height: level.pop().unwrap_or(1) }
    }
}

// A block around another.
fn above(child: Extent) -> Extent {
    Extent { height: 1 + child.height, ..child }
}

/// The sizes of a source's procedures.
pub struct Sizes<'a> {
    source: &'a Source<'a>,
    names: &'a Names<'a>,
    kernel: &'a Kernel,
    sizes: Vec<Size>,
    /// The size of a dynamic block.
    dispatch: Extent,
}

impl Sizes<'_> {
    /// The sizes where all names are sound, with the first procedure that is too great.
    pub fn of<'a>(source: &'a Source<'a>, names: &'a Names<'a>, kernel: &'a Kernel) -> (Sizes<'a>, Option<Refused>) {
        let sizes = vec![Size::default(); source.procedures.len()];
        let mut all = Sizes { source, names, kernel, sizes, dispatch: Extent::default() };
        // a dynamic block stands in no target, and is measured behind them
        let (targets, others): (Vec<usize>, Vec<usize>) = names.order.iter().partition(|place| names.is_below_targets[**place]);
        let first = all.measure(&targets, None);
        let extents = names.targets.iter().map(|place| all.sizes[*place].tree());
        all.dispatch = extents.fold(Extent { operations: 1, height: 1 }, |sum, target| Extent {
            operations: sum.operations + target.operations,
            height: sum.height.max(1 + target.height),
        });
        let first = all.measure(&others, first);
        (all, first)
    }

    /// The size of a procedure's tree.
    pub fn tree(&self, place: usize) -> Extent {
        self.sizes[place].tree()
    }

    // Measures procedures, each behind those that it uses.
    fn measure(&mut self, places: &[usize], mut first: Option<Refused>) -> Option<Refused> {
        for place in places {
            let procedure = &self.source.procedures[*place];
            let size = self.of_procedure(procedure);
            if size.operations > MOST_OPERATIONS {
                first = earlier(first, procedure.at, Cause::TooManyOps);
            } else if size.tree().height > MOST_NESTING {
                first = earlier(first, procedure.at, Cause::TooDeep);
            }
            self.sizes[*place] = size;
        }
        first
    }

    fn of_procedure(&self, procedure: &Procedure) -> Size {
        let mut size = Size::default();
        let moves_frame = procedure.locals > 0;
        if moves_frame {
            size.add(2, &[0]);
        }
        self.add(&procedure.body, &mut size);
        if moves_frame {
            size.add(2, &[0]);
        }
        size
    }

    fn of_body(&self, body: &[Statement]) -> Size {
        let mut size = Size::default();
        self.add(body, &mut size);
        size
    }

    fn add(&self, body: &[Statement], size: &mut Size) {
        let mut items = Vec::new();
        for statement in body {
            match statement {
                Statement::Instruction(instruction) => {
                    items.clear();
                    expand(instruction, &mut items);
                    size.add(items.len() as u64, &[0]);
                }
                Statement::If(first, second) => {
                    let (a, b) = (self.of_body(first).tree(), self.of_body(second).tree());
                    let height = a.height.max(b.height);
                    size.add_block(above(Extent { operations: a.operations + b.operations, height }));
                }
                Statement::While(turn) => size.add_block(above(self.of_body(turn).tree())),
                Statement::Repeat(count, turn) => {
                    let turn = self.of_body(turn);
                    (0..*count).for_each(|_| size.add(turn.operations, &turn.parts));
                }
                Statement::Exec(_, name) => {
                    let used = &self.sizes[self.names.place(name)];
                    size.add(used.operations, &used.parts);
                }
                Statement::Call(_, name) => size.add_block(above(self.tree(self.names.place(name)))),
                Statement::Syscall(_, name) => size.add_block(above(self.kernel.known(name).extent)),
                Statement::ProcRef(..) => size.add(4, &[0]),
                Statement::DynExec(_) => size.add_block(self.dispatch),
            }
        }
    }
}
