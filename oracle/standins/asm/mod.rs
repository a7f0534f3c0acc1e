//! The supplied `output`, `resolver` and `defs/bankdef.rs`, and stand-ins for the rest of `asm`.

use crate::*;

mod ast;
pub use ast::*;

mod decls;
pub use decls::{Decl, DeclList, ItemDecls};

pub mod defs;
pub use defs::{
    AddrDirective, AlignDirective, Bankdef, DataElement, DefList, Instruction, ItemDefs, ResDirective, Symbol,
};

mod told;
pub use told::{settle, Told, MAX_POSITION};

pub mod resolver;
pub use resolver::{ResolutionState, ResolveIterator, ResolverContext, ResolverNode};

pub mod output;

pub struct AssemblyOptions {
    pub debug_iterations: bool,
    pub optimize_statically_known: bool,
}

impl AssemblyOptions {
    pub fn new() -> AssemblyOptions {
        AssemblyOptions { debug_iterations: false, optimize_statically_known: true }
    }
}

pub struct AssemblyResult {
    pub output: Option<util::BitVec>,
}

pub fn assemble(
    _report: &mut diagn::Report,
    _opts: &AssemblyOptions,
    _fileserver: &mut dyn util::FileServer,
    _filenames: &[&str],
) -> AssemblyResult {
    unreachable!("form 1 files are not assembled from text")
}
