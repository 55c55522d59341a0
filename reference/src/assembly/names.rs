//! Which procedures each one uses, and the first name in the third pass that is refused.
use super::linking::Kernel;
use super::refusal::{At, Cause, Refused, earlier};
use super::syntax::{Kind, Procedure, Source, Statement};
use std::collections::HashMap;

/// How many procedures a kernel may export.
const MOST_EXPORTS: usize = 255;

/// How a statement uses the procedure that it names.
#[derive(Clone, Copy, PartialEq)]
enum Way {
    /// By `exec` or `call`.
    Runs,
    /// By `procref`.
    Refers,
    /// By `syscall`, which names one of the kernel's.
    OfKernel,
}

/// A statement that names a procedure.
struct Use<'a> {
    at: At,
    name: &'a str,
    way: Way,
}

/// What a body uses, and where its first dynamic block stands.
#[derive(Default)]
struct Uses<'a> {
    list: Vec<Use<'a>>,
    dynexec: Option<At>,
}

impl<'a> Uses<'a> {
    fn add(&mut self, body: &[Statement<'a>]) {
        for statement in body {
            match statement {
                Statement::Instruction(_) => {}
                Statement::If(first, second) => {
                    self.add(first);
                    self.add(second);
                }
                Statement::While(turn) | Statement::Repeat(_, turn) => self.add(turn),
                Statement::Exec(at, name) | Statement::Call(at, name) => self.push(*at, name, Way::Runs),
                Statement::Syscall(at, name) => self.push(*at, name, Way::OfKernel),
                Statement::ProcRef(at, name) => self.push(*at, name, Way::Refers),
                Statement::DynExec(at) => self.dynexec = self.dynexec.or(Some(*at)),
            }
        }
    }

    fn push(&mut self, at: At, name: &'a str, way: Way) {
        self.list.push(Use { at, name, way });
    }
}

/// Where the names of a source lead: procedures are known by their places in it.
pub struct Names<'a> {
    places: HashMap<&'a str, usize>,
    /// Which procedures each one uses.
    pub graph: Vec<Vec<usize>>,
    /// Those of them that its procrefs name.
    pub referred: Vec<Vec<usize>>,
    /// Whether each one has a dynamic block.
    pub is_dynamic: Vec<bool>,
    /// The procedures that procrefs name, in the order in which each is first named.
    pub targets: Vec<usize>,
    /// The targets and what they use.
    pub is_below_targets: Vec<bool>,
    /// Those that are part of no cycle and use none that is, each behind those that it uses.
    pub order: Vec<usize>,
    /// The first name that is refused.
    pub refused: Option<Refused>,
    /// Whether each name leads to a procedure, and none back to its own.
    pub are_sound: bool,
}

impl<'a> Names<'a> {
    pub fn of(source: &Source<'a>, kernel: &Kernel) -> Names<'a> {
        let procedures = &source.procedures;
        let mut places = HashMap::new();
        for (place, procedure) in procedures.iter().enumerate().filter(|(_, it)| it.kind != Kind::Main) {
            places.entry(procedure.name).or_insert(place);
        }
        let rows: Vec<Uses> = procedures.iter().map(uses_of).collect();
        let mut names = Names {
            places,
            graph: Vec::with_capacity(rows.len()),
            referred: Vec::with_capacity(rows.len()),
            is_dynamic: rows.iter().map(|row| row.dynexec.is_some()).collect(),
            targets: Vec::new(),
            is_below_targets: Vec::new(),
            order: Vec::new(),
            refused: None,
            are_sound: true,
        };
        names.define(source);
        for row in &rows {
            names.follow(row, kernel);
        }
        names.order = in_order(&names.graph);
        if names.order.len() < names.graph.len() {
            names.find_cycles(&rows);
        }
        let mut is_known = vec![false; rows.len()];
        let named = names.referred.iter().flatten().copied();
        names.targets = named.filter(|place| !std::mem::replace(&mut is_known[*place], true)).collect();
        names.is_below_targets = reached(&names.graph, &names.targets);
        names.find_targets_that_dispatch(&rows);
        names
    }

    /// The place of a procedure that is known.
    pub fn place(&self, name: &str) -> usize {
        self.places[name]
    }

    // What is defined twice or exported too often.
    fn define(&mut self, source: &Source) {
        for at in &source.constants_again {
            self.refused = earlier(self.refused, *at, Cause::Duplicate);
        }
        let mut exports = 0;
        for (place, procedure) in source.procedures.iter().enumerate().filter(|(_, it)| it.kind != Kind::Main) {
            if self.places[procedure.name] != place {
                self.refused = earlier(self.refused, procedure.at, Cause::Duplicate);
            }
            exports += usize::from(procedure.kind == Kind::Export);
            if exports == MOST_EXPORTS + 1 && procedure.kind == Kind::Export {
                self.refused = earlier(self.refused, procedure.at, Cause::TooManyExports);
            }
        }
    }

    fn refuse(&mut self, at: At, cause: Cause) {
        self.are_sound = false;
        self.refused = earlier(self.refused, at, cause);
    }

    // Where the names of a body lead.
    fn follow(&mut self, row: &Uses, kernel: &Kernel) {
        let (mut used, mut referred) = (Vec::new(), Vec::new());
        for Use { at, name, way } in &row.list {
            if *way == Way::OfKernel {
                if kernel.export(name).is_none() {
                    self.refuse(*at, Cause::NotInKernel);
                }
                continue;
            }
            let Some(place) = self.places.get(name) else {
                self.refuse(*at, Cause::UnknownProcedure);
                continue;
            };
            used.push(*place);
            if *way == Way::Refers {
                referred.push(*place);
            }
        }
        self.graph.push(used);
        self.referred.push(referred);
    }

    // The first use that leads back to its own procedure.
    fn find_cycles(&mut self, rows: &[Uses]) {
        self.are_sound = false;
        let users = turned(&self.graph);
        let (below, above) = (marked(rows.len(), &self.order), marked(rows.len(), &in_order(&users)));
        for (user, row) in rows.iter().enumerate() {
            let may_decide = |at: At| self.refused.is_none_or(|(before, _)| at <= before);
            if below[user] || above[user] || !row.list.iter().any(|it| may_decide(it.at)) {
                continue;
            }
            let leads_here = reached(&users, &[user]);
            for Use { at, name, way } in &row.list {
                if *way != Way::OfKernel && self.places.get(name).is_some_and(|place| leads_here[*place]) {
                    self.refuse(*at, Cause::Recursive);
                }
            }
        }
    }

    // Dynamic blocks that a target reaches.
    fn find_targets_that_dispatch(&mut self, rows: &[Uses]) {
        for (place, row) in rows.iter().enumerate() {
            if let Some(at) = row.dynexec.filter(|_| self.is_below_targets[place]) {
                self.refuse(at, Cause::Recursive);
            }
        }
    }
}

fn uses_of<'a>(procedure: &Procedure<'a>) -> Uses<'a> {
    let mut uses = Uses::default();
    uses.add(&procedure.body);
    uses
}

// The places of procedures, each behind those that it uses, but for those that are part of a cycle or use one that is.
fn in_order(graph: &[Vec<usize>]) -> Vec<usize> {
    let users = turned(graph);
    let mut left: Vec<usize> = graph.iter().map(Vec::len).collect();
    let mut order: Vec<usize> = (0..graph.len()).filter(|place| left[*place] == 0).collect();
    let mut next = 0;
    while next < order.len() {
        for user in &users[order[next]] {
            left[*user] -= 1;
            if left[*user] == 0 {
                order.push(*user);
            }
        }
        next += 1;
    }
    order
}

fn turned(graph: &[Vec<usize>]) -> Vec<Vec<usize>> {
    let mut users = vec![Vec::new(); graph.len()];
    for (user, row) in graph.iter().enumerate() {
        for place in row {
            users[*place].push(user);
        }
    }
    users
}

/// Which places are reached from some by zero or more steps.
pub fn reached(graph: &[Vec<usize>], starts: &[usize]) -> Vec<bool> {
    let mut marks = marked(graph.len(), starts);
    let mut seen = starts.to_vec();
    while let Some(place) = seen.pop() {
        for other in &graph[place] {
            if !marks[*other] {
                marks[*other] = true;
                seen.push(*other);
            }
        }
    }
    marks
}

/// Places as marks.
pub fn marked(count: usize, places: &[usize]) -> Vec<bool> {
    let mut marks = vec![false; count];
    for place in places {
        marks[*place] = true;
    }
    marks
}
