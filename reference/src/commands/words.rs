//! The words behind the program's name.
use crate::formats::decimals::element;
use crate::machine::MOST_CYCLES;
use std::ops::RangeInclusive;

const MOST_NAME: usize = 200;

const MOST_PIECES: u64 = 64;

const MOST_TURNS: u64 = 1000;

const MOST_DEPTH: u64 = 64;

/// A source with its kernel, where it has one.
#[derive(Clone, Copy, Debug, PartialEq)]
pub struct SourceNames<'a> {
    pub source: &'a str,
    pub kernel: Option<&'a str>,
}

#[derive(Debug, PartialEq)]
pub struct Run<'a> {
    pub params: &'a str,
    pub source: SourceNames<'a>,
    pub inputs: &'a str,
    pub table: &'a str,
    pub statement: &'a str,
    pub limit: u32,
}

#[derive(Debug, PartialEq)]
pub struct Check<'a> {
    pub params: &'a str,
    pub table: &'a str,
    pub statement: &'a str,
    pub evidence: &'a str,
    pub source: Option<SourceNames<'a>>,
    pub pieces: usize,
}

#[derive(Debug, PartialEq)]
pub struct Member<'a> {
    pub params: &'a str,
    pub table: &'a str,
    pub statement: &'a str,
    pub depth: u64,
    pub evidence: &'a str,
    pub pieces: usize,
}

#[derive(Debug, PartialEq)]
pub struct Make<'a> {
    pub params: &'a str,
    pub turns: u64,
    pub source: &'a str,
    pub inputs: &'a str,
}

#[derive(Debug, PartialEq)]
pub struct Chain<'a> {
    pub params: &'a str,
    pub list: &'a str,
    pub evidence: &'a str,
    pub pieces: usize,
}

#[derive(Debug, PartialEq)]
pub enum Command<'a> {
    Hash { params: &'a str, numbers: &'a str },
    Assemble { params: &'a str, source: SourceNames<'a> },
    Run(Run<'a>),
    Check(Check<'a>),
    Member(Member<'a>),
    Make(Make<'a>),
    Chain(Chain<'a>),
    Runs { params: &'a str, list: &'a str },
}

/// What words ask for, where they are of a command.
pub fn read<'a>(words: &[&'a [u8]]) -> Option<Command<'a>> {
    let words: Vec<&str> = words.iter().map(|word| std::str::from_utf8(word).ok()).collect::<Option<_>>()?;
    let (command, words) = words.split_first()?;
    match *command {
        "hash" => hash(&Form::of(words, 2, &[])?),
        "assemble" => assemble(&Form::of(words, 2, &["--kernel"])?),
        "run" => run(&Form::of(words, 3, &["--out", "--statement", "--kernel", "--limit"])?),
        "check" => check(&Form::of(words, 3, &["--evidence", "--pieces", "--source", "--kernel"])?),
        "member" => member(&Form::of(words, 3, &["--depth", "--evidence", "--pieces"])?),
        "make" => make(&Form::of(words, 2, &["--source", "--inputs"])?),
        "chain" => chain(&Form::of(words, 2, &["--evidence", "--pieces"])?),
        "runs" => runs(&Form::of(words, 2, &[])?),
        _ => None,
    }
}

/// Whether a word is the name of a file.
pub fn is_file_name(word: &str) -> bool {
    let is_name_byte = |byte: u8| byte.is_ascii_alphanumeric() || matches!(byte, b'.' | b'_' | b'-' | b'/');
    (1..=MOST_NAME).contains(&word.len()) && word.bytes().all(is_name_byte) && !word.starts_with('-')
}

fn file_name(word: &str) -> Option<&str> {
    Some(word).filter(|word| is_file_name(word))
}

fn number(word: &str, range: RangeInclusive<u64>) -> Option<u64> {
    element(word.as_bytes()).filter(|number| range.contains(number))
}

/// Words by their form: positionals, and options with their values.
struct Form<'a> {
    positionals: Vec<&'a str>,
    options: Vec<(&'a str, &'a str)>,
}

impl<'a> Form<'a> {
    // So many positionals, and options of these names, each at most once.
    fn of(words: &[&'a str], count: usize, names: &[&str]) -> Option<Form<'a>> {
        let mut form = Form { positionals: Vec::new(), options: Vec::new() };
        let mut words = words.iter().copied();
        while let Some(word) = words.next() {
            if word == "--" {
                form.positionals.extend(words.by_ref());
            } else if !word.starts_with("--") {
                form.positionals.push(word);
            } else if let Some((name, value)) = word.split_once('=') {
                form.options.push((name, value));
            } else {
                form.options.push((word, words.next()?));
            }
        }
        let is_known = form.options.iter().all(|(name, _)| names.contains(name));
        let is_repeated = names.iter().any(|name| form.options.iter().filter(|(given, _)| given == name).count() > 1);
        (form.positionals.len() == count && is_known && !is_repeated).then_some(form)
    }

    fn name(&self, place: usize) -> Option<&'a str> {
        file_name(self.positionals[place])
    }

    fn option(&self, name: &str) -> Option<&'a str> {
        self.options.iter().find(|(given, _)| *given == name).map(|(_, value)| *value)
    }

    // The file name that has to be given.
    fn needed_name(&self, option: &str) -> Option<&'a str> {
        file_name(self.option(option)?)
    }

    // The file name that may be given; none where what is given is no name.
    fn free_name(&self, option: &str) -> Option<Option<&'a str>> {
        self.option(option).map_or(Some(None), |word| file_name(word).map(Some))
    }

    fn number_or(&self, option: &str, range: RangeInclusive<u64>, missing: u64) -> Option<u64> {
        self.option(option).map_or(Some(missing), |word| number(word, range))
    }

    fn pieces(&self) -> Option<usize> {
        self.number_or("--pieces", 1..=MOST_PIECES, 1).map(|pieces| pieces as usize)
    }
}

// Whether each name that is written differs from all others.
fn are_apart(written: &[&str], read: &[&str]) -> bool {
    let apart = |(i, name): (usize, &&str)| !read.contains(name) && !written[..i].contains(name);
    written.iter().enumerate().all(apart)
}

fn hash<'a>(form: &Form<'a>) -> Option<Command<'a>> {
    Some(Command::Hash { params: form.name(0)?, numbers: form.name(1)? })
}

fn assemble<'a>(form: &Form<'a>) -> Option<Command<'a>> {
    let source = SourceNames { source: form.name(1)?, kernel: form.free_name("--kernel")? };
    Some(Command::Assemble { params: form.name(0)?, source })
}

fn run<'a>(form: &Form<'a>) -> Option<Command<'a>> {
    let run = Run {
        params: form.name(0)?,
        source: SourceNames { source: form.name(1)?, kernel: form.free_name("--kernel")? },
        inputs: form.name(2)?,
        table: form.needed_name("--out")?,
        statement: form.needed_name("--statement")?,
        limit: form.number_or("--limit", 1..=MOST_CYCLES.into(), MOST_CYCLES.into())? as u32,
    };
    let mut read = vec![run.params, run.source.source, run.inputs];
    read.extend(run.source.kernel);
    are_apart(&[run.table, run.statement], &read).then_some(Command::Run(run))
}

fn check<'a>(form: &Form<'a>) -> Option<Command<'a>> {
    let (source, kernel) = (form.free_name("--source")?, form.free_name("--kernel")?);
    if source.is_none() && kernel.is_some() {
        return None;
    }
    let check = Check {
        params: form.name(0)?,
        table: form.name(1)?,
        statement: form.name(2)?,
        evidence: form.needed_name("--evidence")?,
        source: source.map(|source| SourceNames { source, kernel }),
        pieces: form.pieces()?,
    };
    let mut read = vec![check.params, check.table, check.statement];
    read.extend(source);
    read.extend(kernel);
    are_apart(&[check.evidence], &read).then_some(Command::Check(check))
}

fn member<'a>(form: &Form<'a>) -> Option<Command<'a>> {
    let member = Member {
        params: form.name(0)?,
        table: form.name(1)?,
        statement: form.name(2)?,
        depth: number(form.option("--depth")?, 1..=MOST_DEPTH)?,
        evidence: form.needed_name("--evidence")?,
        pieces: form.pieces()?,
    };
    are_apart(&[member.evidence], &[member.params, member.table, member.statement]).then_some(Command::Member(member))
}

fn make<'a>(form: &Form<'a>) -> Option<Command<'a>> {
    let make = Make {
        params: form.name(0)?,
        turns: number(form.positionals[1], 1..=MOST_TURNS)?,
        source: form.needed_name("--source")?,
        inputs: form.needed_name("--inputs")?,
    };
    are_apart(&[make.source, make.inputs], &[make.params]).then_some(Command::Make(make))
}

fn chain<'a>(form: &Form<'a>) -> Option<Command<'a>> {
    let chain =
        Chain { params: form.name(0)?, list: form.name(1)?, evidence: form.needed_name("--evidence")?, pieces: form.pieces()? };
    are_apart(&[chain.evidence], &[chain.params, chain.list]).then_some(Command::Chain(chain))
}

fn runs<'a>(form: &Form<'a>) -> Option<Command<'a>> {
    Some(Command::Runs { params: form.name(0)?, list: form.name(1)? })
}
