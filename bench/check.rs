//! The command `check` in plain Rust, for `check.sh`, `pieces.sh` and `source.sh` to compare with. `check PARAMS T S E` reads a table
//! file and a statement, tests all rows of the tables, counts and compares all buses, writes the evidence to E, and prints that it is
//! accepted, or why it is refused; to standard error it tells the microseconds of each part. With a number behind E it tests and counts
//! the rows in so many pieces, each in a thread of its own, and adds up what they counted, two by two. `source PARAMS T S E M [K]` does
//! so in one piece, and writes evidence for the source M with the kernel K. `time PARAMS T` checks in one piece for the statement that
//! the last two rows show, and prints the count of the main rows and the microseconds of reading, of testing rows and of comparing buses.
use reference::assembly::{Kernel, assemble, assemble_kernel};
use reference::checking::{Pass, Pieces, Refusal, compared, passed, whole};
use reference::evidence::{evidence, sourced, sourced_text, text};
use reference::formats::statements::{self, Statement};
use reference::formats::{decimals, table_files};
use reference::permutation::Params;
use reference::trace::Tables;
use reference::trace::columns::{H, S};
use reference::trees::Tree;
use std::time::Instant;

fn micros(start: &mut Instant) -> u128 {
    let micros = start.elapsed().as_micros();
    *start = Instant::now();
    micros
}

fn read(path: &str) -> Vec<u8> {
    std::fs::read(path).unwrap_or_else(|error| panic!("{path}: {error}"))
}

/// The names of the files, and in how many pieces rows are tested.
struct Names<'a> {
    table: &'a str,
    statement: &'a str,
    saved: &'a str,
    source: Option<(&'a str, Option<&'a str>)>,
    pieces: usize,
}

fn program_of(params: &Params, source: &str, kernel: Option<&str>) -> Tree {
    let (source, kernel) = (read(source), kernel.map(read));
    let kernel = kernel.map_or(Kernel::default(), |kernel| assemble_kernel(&kernel).expect("a kernel"));
    assemble(params, &source, &kernel).expect("a program")
}

fn check(params: &Params, names: &Names) -> Result<String, Refusal> {
    let mut start = Instant::now();
    let bytes = read(names.table);
    let mut parts = vec![micros(&mut start)];
    let tables = table_files::decode(&bytes).expect("a table file");
    drop(bytes);
    parts.push(micros(&mut start));
    let statement = statements::read(&read(names.statement)).expect("a statement");
    let source = names.source.map(|(source, kernel)| {
        let program = program_of(params, source, kernel);
        parts.push(micros(&mut start));
        program
    });
    let (codes, buses) = passed(params, &tables, &statement, Pieces { low: 0, high: names.pieces, all: names.pieces })?;
    parts.push(micros(&mut start));
    compared(&buses)?;
    drop(buses);
    parts.push(micros(&mut start));
    let found = evidence(&tables, &codes);
    let text = match source {
        None => text(&found),
        Some(tree) => sourced_text(&sourced(params, &tables.hasher, found, tree, statement.digest).expect("the statement's program")),
    };
    std::fs::write(names.saved, &text).expect("the evidence is written");
    parts.push(micros(&mut start));
    eprintln!("{}", parts.iter().map(u128::to_string).collect::<Vec<_>>().join(" "));
    Ok(format!("accepted {}", text.lines().next().unwrap_or("")))
}

// What the last two rows show.
fn shown(tables: &Tables) -> Statement {
    let [.., end, halt] = &tables.main[..] else { panic!("two rows") };
    let digest = std::array::from_fn(|j| end[H + j]);
    Statement { digest, kernel: Vec::new(), inputs: Vec::new(), outputs: halt[S..S + 16].to_vec() }
}

fn time(params: &Params, table: &str) -> Result<String, Refusal> {
    let bytes = read(table);
    let mut start = Instant::now();
    let tables = table_files::decode(&bytes).expect("a table file");
    let reading = micros(&mut start);
    let statement = shown(&tables);
    Pass::<true, false>::new(params, &tables, &statement, whole(&tables)).all()?;
    let testing = micros(&mut start);
    let mut pass = Pass::<false, true>::new(params, &tables, &statement, whole(&tables));
    pass.all()?;
    compared(&pass.buses)?;
    Ok(format!("{} {reading} {testing} {}", tables.main.len(), micros(&mut start)))
}

fn main() {
    let words: Vec<String> = std::env::args().collect();
    let words: Vec<&str> = words.iter().map(String::as_str).collect();
    let params_of = |path: &str| decimals::params(&read(path)).expect("parameters");
    let answer = match words[1..] {
        ["check", params, table, statement, saved] => check(&params_of(params), &Names { table, statement, saved, source: None, pieces: 1 }),
        ["check", params, table, statement, saved, pieces] => {
            let pieces = pieces.parse().ok().filter(|pieces| *pieces > 0).expect("a number of pieces");
            check(&params_of(params), &Names { table, statement, saved, source: None, pieces })
        }
        ["source", params, table, statement, saved, source, ref kernel @ ..] => {
            let source = Some((source, kernel.first().copied()));
            check(&params_of(params), &Names { table, statement, saved, source, pieces: 1 })
        }
        ["time", params, table] => time(&params_of(params), table),
        _ => panic!("give check PARAMS T S E [PIECES], source PARAMS T S E M [K], or time PARAMS T"),
    };
    match answer {
        Ok(line) => println!("{line}"),
        Err(line) => {
            println!("{line}");
            std::process::exit(1);
        }
    }
}
