//! The third pass, and the trees of a program and of what a kernel exports.
use super::library::add_library;
use super::names::Names;
use super::parsing::parse;
use super::refusal::Refused;
use super::sizes::{Extent, Sizes};
use super::syntax::{Kind, Source};
use super::tokens::tokens;
use super::trees::Builder;
use crate::permutation::Params;
use crate::trees::Tree;

/// What a kernel exports, in the order of its source.
#[derive(Default)]
pub struct Kernel {
    pub exports: Vec<Export>,
}

pub struct Export {
    pub name: String,
    pub tree: Tree,
    pub(super) extent: Extent,
}

impl Kernel {
    pub(super) fn export(&self, name: &str) -> Option<&Export> {
        self.exports.iter().find(|export| export.name == name)
    }

    pub(super) fn known(&self, name: &str) -> &Export {
        self.export(name).expect("an exported name")
    }
}

/// What a source says, where the first two passes find nothing.
pub(super) fn read(source: &[u8], is_kernel: bool) -> Result<Source<'_>, Refused> {
    let (tokens, end) = tokens(source)?;
    parse(&tokens, end, is_kernel)
}

/// The sizes of a source in which the third pass finds nothing.
fn linked<'a>(source: &'a Source<'a>, names: &'a Names<'a>, kernel: &'a Kernel) -> Result<Sizes<'a>, Refused> {
    if !names.are_sound {
        return Err(names.refused.expect("a name that is refused"));
    }
    let (sizes, too_great) = Sizes::of(source, names, kernel);
    match [names.refused, too_great].into_iter().flatten().min() {
        Some(refused) => Err(refused),
        None => Ok(sizes),
    }
}

pub fn assemble_kernel(source: &[u8]) -> Result<Kernel, Refused> {
    let none = Kernel::default();
    let source = read(source, true)?;
    let names = Names::of(&source, &none);
    let sizes = linked(&source, &names, &none)?;
    let builder = Builder::new(&source, &names, &none);
    let exported = source.procedures.iter().enumerate().filter(|(_, procedure)| procedure.kind == Kind::Export);
    let exports = exported.map(|(place, procedure)| Export {
        name: procedure.name.to_string(),
        tree: builder.procedure(place),
        extent: sizes.tree(place),
    });
    Ok(Kernel { exports: exports.collect() })
}

/// The tree of a program. The digests that its procrefs put on the stack are those under these parameters.
pub fn assemble(params: &Params, source: &[u8], kernel: &Kernel) -> Result<Tree, Refused> {
    let mut source = read(source, false)?;
    add_library(&mut source);
    let names = Names::of(&source, kernel);
    linked(&source, &names, kernel)?;
    let mut builder = Builder::new(&source, &names, kernel);
    builder.refer(params);
    Ok(builder.procedure(source.procedures.len() - 1))
}
