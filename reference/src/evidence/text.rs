//! The text of evidence: lines, each ended by a line feed.
use super::placed::{Pair, Tree};
use super::sourced::Sourced;
use super::walking::Evidence;
use crate::formats::statements::hex;
use std::fmt::Write;

const ROOM: &str = "room for the text";

fn write_numbers(text: &mut String, name: &str, numbers: &[u64]) {
    text.push_str(name);
    for number in numbers {
        write!(text, " {number}").expect(ROOM);
    }
    text.push('\n');
}

// A tree in preorder.
fn write_tree(text: &mut String, tree: &Tree) {
    match tree {
        Tree::Opaque(digest) => writeln!(text, "opaque {}", hex(digest)).expect(ROOM),
        Tree::Span(_, batches) => {
            writeln!(text, "span {}", batches.len()).expect(ROOM);
            for batch in batches {
                write_numbers(text, "batch", batch);
            }
        }
        Tree::Join(_, first, second) => write_block(text, "join\n", [&**first, &**second]),
        Tree::Split(_, first, second) => write_block(text, "split\n", [&**first, &**second]),
        Tree::Loop(_, body) => write_block(text, "loop\n", [&**body]),
        Tree::Call(_, callee) => write_block(text, "call\n", [&**callee]),
        Tree::Syscall(_, callee) => write_block(text, "syscall\n", [&**callee]),
        Tree::Dyn(_, targets) => {
            let line = format!("dyn {}\n", targets.len());
            write_block(text, &line, targets.iter().map(|(_, target)| target));
        }
    }
}

fn write_block<'a>(text: &mut String, line: &str, children: impl IntoIterator<Item = &'a Tree>) {
    text.push_str(line);
    for child in children {
        write_tree(text, child);
    }
}

fn run_text(name: &str, evidence: &Evidence) -> String {
    let mut text = format!("{name}\ncycles {}\n", evidence.cycles);
    write_numbers(&mut text, "tape", &evidence.tape);
    write_tree(&mut text, &evidence.tree);
    text
}

/// The text of evidence.
pub fn text(evidence: &Result<Evidence, Pair>) -> String {
    match evidence {
        Ok(evidence) => run_text("run", evidence),
        Err(Pair(first, second)) => format!("pair {first} {second}\n"),
    }
}

/// The text of evidence for a source.
pub fn sourced_text(evidence: &Sourced) -> String {
    match evidence {
        Sourced::Ran(evidence) => run_text("ran", evidence),
        Sourced::InFile(Pair(first, second)) => format!("clash file {first} file {second}\n"),
        Sourced::InSource(file, node) => format!("clash file {file} node {node}\n"),
    }
}
