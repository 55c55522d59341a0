//! The commands (docs/FORMATS.md): their words, what they read, do and write, and how they end.
mod answer;
mod assembling;
mod chaining;
mod checks;
mod files;
mod hashing;
mod making;
mod membership;
mod runs;
mod words;

pub use answer::{Answer, Status};
pub use runs::{Program, Ran, outputs_line, ran};
pub use words::{Command, is_file_name, read};

/// Does what words ask for.
pub fn answer(words: &[&[u8]]) -> Answer {
    let Some(command) = read(words) else { return Answer::new(Status::Usage, "usage") };
    let answer = match command {
        Command::Hash { params, numbers } => hashing::hash(params, numbers),
        Command::Assemble { params, source } => assembling::assemble(params, source),
        Command::Run(run) => runs::run(&run),
        Command::Check(check) => checks::check(&check),
        Command::Member(member) => membership::member(&member),
        Command::Make(make) => making::make(&make),
        Command::Chain(chain) => chaining::chain(&chain),
        Command::Runs { params, list } => chaining::runs(params, list),
    };
    answer.unwrap_or_else(|end| end)
}
