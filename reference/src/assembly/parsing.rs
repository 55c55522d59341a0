//! The second pass: tokens as procedures. Each token is tested where it stands, for all causes in their order.
use super::instructions::{instruction, is_unsupported, named, number_or_constant};
use super::numbers::{is_constant_name, is_procedure_name, number};
use super::refusal::{At, Cause, Refused};
use super::syntax::{Kind, Procedure, Source, Statement};
use super::tokens::Token;
use crate::field::PRIME;
use std::collections::HashMap;
use std::mem;

/// How many blocks may be open at once.
const MOST_OPEN: usize = 256;

const MOST_LOCALS: u128 = 65_535;

const MOST_TURNS: u128 = 10_000;

/// A block that was begun and not ended, with the statements before it.
enum Open<'a> {
    If(Vec<Statement<'a>>),
    Else(Vec<Statement<'a>>, Vec<Statement<'a>>),
    While(Vec<Statement<'a>>),
    Repeat(u32, Vec<Statement<'a>>),
}

impl<'a> Open<'a> {
    // The statements before it and the block, whose last body is this.
    fn close(self, body: Vec<Statement<'a>>) -> Vec<Statement<'a>> {
        let (mut before, block) = match self {
            Open::If(before) => (before, Statement::If(body, Vec::new())),
            Open::Else(before, first) => (before, Statement::If(first, body)),
            Open::While(before) => (before, Statement::While(body)),
            Open::Repeat(count, before) => (before, Statement::Repeat(count, body)),
        };
        before.push(block);
        before
    }
}

struct Parser<'a> {
    is_kernel: bool,
    constants: HashMap<&'a str, u64>,
    constants_again: Vec<At>,
    procedures: Vec<Procedure<'a>>,
    /// The procedure whose body the tokens are in.
    home: Option<Procedure<'a>>,
    open: Vec<Open<'a>>,
    body: Vec<Statement<'a>>,
    /// Nothing follows a program's main body.
    is_done: bool,
}

/// What tokens say, where the place behind the last byte is `end`.
pub fn parse<'a>(tokens: &[Token<'a>], end: At, is_kernel: bool) -> Result<Source<'a>, Refused> {
    let mut parser = Parser {
        is_kernel,
        constants: HashMap::new(),
        constants_again: Vec::new(),
        procedures: Vec::new(),
        home: None,
        open: Vec::new(),
        body: Vec::new(),
        is_done: false,
    };
    for token in tokens {
        parser.take(token).map_err(|cause| (token.at, cause))?;
    }
    let Parser { home, procedures, constants_again, is_done, .. } = parser;
    if home.is_some() || !is_kernel && !is_done {
        return Err((end, Cause::Syntax));
    }
    Ok(Source { procedures, constants_again })
}

impl<'a> Parser<'a> {
    fn take(&mut self, token: &Token<'a>) -> Result<(), Cause> {
        let mut parts = token.text.split('.');
        let first = parts.next().unwrap_or("");
        let parts: Vec<&'a str> = parts.collect();
        if self.is_kernel && matches!(first, "begin" | "call" | "syscall" | "procref" | "dynexec") {
            return Err(Cause::KernelBody);
        }
        if is_unsupported(first) || token.text == "exp" {
            return Err(Cause::Unsupported);
        }
        match first {
            "const" | "proc" | "export" | "begin" => self.outside(token.at, first, &parts),
            "end" | "if" | "else" | "while" | "repeat" => self.block(first, &parts),
            "exec" | "call" | "syscall" | "procref" | "dynexec" => self.using(token.at, first, &parts),
            _ => {
                let name = named(first).ok_or(Cause::UnknownInstruction)?;
                let home = self.home.as_ref().ok_or(Cause::Syntax)?;
                let instruction = instruction(name, &parts, &self.constants, home.locals)?;
                self.body.push(Statement::Instruction(instruction));
                Ok(())
            }
        }
    }

    // A token that stands outside of bodies.
    fn outside(&mut self, at: At, first: &str, parts: &[&'a str]) -> Result<(), Cause> {
        if self.home.is_some() || self.is_done {
            return Err(Cause::Syntax);
        }
        let (kind, name, locals) = match (first, parts) {
            ("const", [definition]) => return self.constant(at, definition),
            ("begin", []) => (Kind::Main, "", "0"),
            ("proc", [name]) => (Kind::Own, *name, "0"),
            ("proc", [name, locals]) => (Kind::Own, *name, *locals),
            ("export", [name]) if self.is_kernel => (Kind::Export, *name, "0"),
            ("export", [name, locals]) if self.is_kernel => (Kind::Export, *name, *locals),
            _ => return Err(Cause::Syntax),
        };
        let locals = number(locals).filter(|_| kind == Kind::Main || is_procedure_name(name)).ok_or(Cause::Syntax)?;
        if locals > MOST_LOCALS {
            return Err(Cause::LocalsRange);
        }
        self.home = Some(Procedure { name, at, kind, locals: locals as u64, body: Vec::new() });
        Ok(())
    }

    // `NAME=v`, of which the first definition stands.
    fn constant(&mut self, at: At, definition: &'a str) -> Result<(), Cause> {
        let (name, value) = definition.split_once('=').ok_or(Cause::Syntax)?;
        let value = number(value).filter(|_| is_constant_name(name)).ok_or(Cause::Syntax)?;
        if value >= PRIME.into() {
            return Err(Cause::NumberRange);
        }
        if self.constants.contains_key(name) {
            self.constants_again.push(at);
        } else {
            self.constants.insert(name, value as u64);
        }
        Ok(())
    }

    // A token that begins or ends a block.
    fn block(&mut self, first: &str, parts: &[&str]) -> Result<(), Cause> {
        if self.home.is_none() {
            return Err(Cause::Syntax);
        }
        match (first, parts) {
            ("end", []) => self.end(),
            ("else", []) => match self.open.pop() {
                Some(Open::If(before)) => self.open.push(Open::Else(before, mem::take(&mut self.body))),
                _ => return Err(Cause::Syntax),
            },
            ("if", ["true"]) => self.opens(Open::If)?,
            ("while", ["true"]) => self.opens(Open::While)?,
            ("repeat", [count]) => {
                let count = number_or_constant(count, &self.constants).ok_or(Cause::Syntax)?;
                if !(1..=MOST_TURNS).contains(&count) {
                    return Err(Cause::RepeatRange);
                }
                self.opens(|before| Open::Repeat(count as u32, before))?;
            }
            _ => return Err(Cause::Syntax),
        }
        Ok(())
    }

    fn opens(&mut self, open: impl FnOnce(Vec<Statement<'a>>) -> Open<'a>) -> Result<(), Cause> {
        if self.open.len() >= MOST_OPEN {
            return Err(Cause::TooDeep);
        }
        self.open.push(open(mem::take(&mut self.body)));
        Ok(())
    }

    // The innermost block ends, or the procedure.
    fn end(&mut self) {
        let body = mem::take(&mut self.body);
        if let Some(open) = self.open.pop() {
            self.body = open.close(body);
        } else if let Some(home) = self.home.take() {
            self.is_done = home.kind == Kind::Main;
            self.procedures.push(Procedure { body, ..home });
        }
    }

    // A token that names a procedure, or `dynexec`.
    fn using(&mut self, at: At, first: &str, parts: &[&'a str]) -> Result<(), Cause> {
        if self.home.is_none() {
            return Err(Cause::Syntax);
        }
        let statement = match (first, parts) {
            ("dynexec", []) => Statement::DynExec(at),
            ("exec", [name]) if is_procedure_name(name) => Statement::Exec(at, name),
            ("call", [name]) if is_procedure_name(name) => Statement::Call(at, name),
            ("syscall", [name]) if is_procedure_name(name) => Statement::Syscall(at, name),
            ("procref", [name]) if is_procedure_name(name) => Statement::ProcRef(at, name),
            _ => return Err(Cause::Syntax),
        };
        self.body.push(statement);
        Ok(())
    }
}
