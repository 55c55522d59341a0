//! The command `assemble` in plain Rust, for `dynamic.sh` to compare with: `digest PARAMS SOURCE` prints the digest of the source's tree.
//! `time CASE SOURCE`, for `assemble.sh`, prints the case, the microseconds of assembling, the source's length, and what it came to.
use reference::assembly::{Kernel, assemble};
use reference::formats::decimals;
use reference::formats::statements::hex;
use reference::permutation::Params;
use reference::trees::{Tree, digest};
use std::time::Instant;

// How many batches a tree has, and the sum of their elements.
fn tally(tree: &Tree) -> (u64, u64) {
    let both = |(m, x): (u64, u64), (n, y): (u64, u64)| (m + n, x.wrapping_add(y));
    match tree {
        Tree::Span(batches) => {
            let sum = batches.iter().flatten().fold(0u64, |sum, x| sum.wrapping_add(*x));
            (batches.len() as u64, sum)
        }
        Tree::Join(a, b) | Tree::Split(a, b) => both(tally(a), tally(b)),
        Tree::Loop(a) | Tree::Call(a) | Tree::Syscall(a) => tally(a),
        Tree::Dyn(targets) => targets.iter().map(tally).fold((0, 0), both),
    }
}

fn time(case: &str, source: &[u8]) {
    let params = Params { first: [[0; 12]; 7], second: [[0; 12]; 7] };
    let start = Instant::now();
    let answer = assemble(&params, source, &Kernel::default());
    let micros = start.elapsed().as_micros();
    match answer {
        Ok(tree) => {
            let (batches, sum) = tally(&tree);
            println!("{case} {micros} {} tree {batches} {sum}", source.len());
        }
        Err((at, cause)) => println!("{case} {micros} {} {cause:?} {} {}", source.len(), at.line, at.column),
    }
}

fn print_digest(params: &Params, name: &str, source: &[u8]) {
    match assemble(params, source, &Kernel::default()) {
        Ok(tree) => println!("digest {}", hex(&digest(params, &tree))),
        Err((at, cause)) => println!("source {name} {} {} {cause:?}", at.line, at.column),
    }
}

fn main() {
    let words: Vec<String> = std::env::args().collect();
    let words: Vec<&str> = words.iter().map(String::as_str).collect();
    let read = |name: &str| std::fs::read(name).expect("the file is read");
    match words[1..] {
        ["digest", params, name] => print_digest(&decimals::params(&read(params)).expect("parameters"), name, &read(name)),
        ["time", case, name] => time(case, &read(name)),
        _ => panic!("give digest PARAMS SOURCE, or time CASE SOURCE"),
    }
}
