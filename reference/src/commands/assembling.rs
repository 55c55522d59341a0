//! `assemble`, and the sources of the other commands.
use super::answer::{Answer, Status, Step};
use super::files;
use super::words::SourceNames;
use crate::assembly::{At, Cause, Kernel, assemble as assembled, assemble_kernel};
use crate::formats::statements::hex;
use crate::permutation::Params;
use crate::trees::{Tree, digest};

/// A source and its kernel's, as they are read.
pub struct Sources {
    source: Vec<u8>,
    kernel: Option<Vec<u8>>,
}

impl Sources {
    pub fn read(names: SourceNames) -> Step<Sources> {
        Sources::with_kernel(files::source(names.source)?, names)
    }

    /// The same, where the kernel alone is still to be read.
    pub fn with_kernel(source: Vec<u8>, names: SourceNames) -> Step<Sources> {
        Ok(Sources { source, kernel: names.kernel.map(files::source).transpose()? })
    }

    /// The tree of the program, and its kernel.
    pub fn assembled(&self, params: &Params, names: SourceNames) -> Step<(Tree, Kernel)> {
        let kernel = match (&self.kernel, names.kernel) {
            (Some(kernel), Some(name)) => assemble_kernel(kernel).map_err(|refused| refusal(name, refused))?,
            _ => Kernel::default(),
        };
        let tree = assembled(params, &self.source, &kernel).map_err(|refused| refusal(names.source, refused))?;
        Ok((tree, kernel))
    }
}

fn refusal(name: &str, (At { line, column }, cause): (At, Cause)) -> Answer {
    Answer::new(Status::Source, format!("source {name} {line} {column} {cause:?}"))
}

pub fn assemble(params: &str, names: SourceNames) -> Step<Answer> {
    let params = files::params(params)?;
    let (tree, kernel) = Sources::read(names)?.assembled(&params, names)?;
    let mut lines = format!("digest {}", hex(&digest(&params, &tree)));
    for export in &kernel.exports {
        lines += &format!("\nkernel {} {}", export.name, hex(&digest(&params, &export.tree)));
    }
    Ok(Answer::new(Status::Done, lines))
}
