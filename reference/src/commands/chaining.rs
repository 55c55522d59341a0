//! `runs` and `chain`: links that go on from one another.
use super::answer::{Answer, Status, Step};
use super::assembling::Sources;
use super::checks::{accepted, refused};
use super::files;
use super::runs::{Program, outputs_line, ran, stopped, write_run};
use super::words::{Chain, SourceNames};
use crate::evidence::text;
use crate::formats::TextCause;
use crate::formats::inputs::MOST_STACK;
use crate::formats::lists::{Purpose, read};
use crate::formats::statements::Statement;
use crate::machine::MOST_CYCLES;

fn broken(link: usize) -> Answer {
    Answer::new(Status::BrokenLink, format!("broken link {link}"))
}

pub fn runs(params_name: &str, list_name: &str) -> Step<Answer> {
    let params = files::params(params_name)?;
    let list = files::list(list_name)?;
    let purpose = Purpose { read: 2, written: 2, words: &[(params_name, false), (list_name, false)] };
    let links = read(&list, &purpose).map_err(|bad| files::malformed_line(list_name, bad))?;
    let mut left: Option<Vec<u64>> = None;
    for (place, names) in links.iter().enumerate() {
        let [source, inputs_name, table, statement] = names[..] else { unreachable!("a line has four names") };
        let names = SourceNames { source, kernel: None };
        let sources = Sources::read(names)?;
        let mut inputs = files::inputs(inputs_name)?;
        if let Some(stack) = left {
            if !inputs.stack.is_empty() {
                return Err(files::malformed(inputs_name, TextCause::Count));
            }
            inputs.stack = stack;
        }
        let of_link = |end: Answer| end.of_link(place + 1);
        let (tree, kernel) = sources.assembled(&params, names).map_err(of_link)?;
        let program = Program::of(&params, tree, kernel);
        let run = ran(&params, &program, &inputs, MOST_CYCLES).map_err(|stop| of_link(stopped(stop, MOST_CYCLES)))?;
        let outputs = write_run(program, inputs.stack, run, table, statement)?;
        if outputs.len() > MOST_STACK && place + 1 < links.len() {
            return Err(broken(place + 1));
        }
        left = Some(outputs);
    }
    let outputs = outputs_line(&left.unwrap_or_default());
    Ok(Answer::new(Status::Done, format!("links {}\n{outputs}", links.len())))
}

// Whether a run on a statement's inputs begins with this stack.
fn begins_with(statement: &Statement, stack: &[u64]) -> bool {
    let mut first = statement.inputs.clone();
    first.resize(first.len().max(16), 0);
    first == stack
}

pub fn chain(words: &Chain) -> Step<Answer> {
    let params = files::params(words.params)?;
    let list = files::list(words.list)?;
    let purpose = Purpose { read: 2, written: 0, words: &[(words.params, false), (words.list, false), (words.evidence, true)] };
    let links = read(&list, &purpose).map_err(|bad| files::malformed_line(words.list, bad))?;
    let mut left: Option<Vec<u64>> = None;
    let mut all = String::new();
    for (place, names) in links.iter().enumerate() {
        let [table, statement] = names[..] else { unreachable!("a line has two names") };
        let tables = files::tables(table)?;
        let statement = files::statement(statement)?;
        if left.is_some_and(|stack| !begins_with(&statement, &stack)) {
            return Err(broken(place));
        }
        let link = place + 1;
        let shown = accepted(&params, &tables, &statement, words.pieces).map_err(|why| refused(why).of_link(link))?;
        all += &format!("link {link}\n{}", text(&shown));
        left = Some(statement.outputs);
    }
    files::write(words.evidence, all)?;
    Ok(Answer::new(Status::Done, format!("accepted links {}", links.len())))
}
