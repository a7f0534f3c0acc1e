//! An alignment is the row's number, in bits.

use crate::*;

pub fn resolve_align(
    report: &mut diagn::Report,
    opts: &asm::AssemblyOptions,
    _fileserver: &mut dyn util::FileServer,
    ast_align: &asm::AstDirectiveAlign,
    _decls: &asm::ItemDecls,
    defs: &mut asm::ItemDefs,
    ctx: &asm::ResolverContext,
) -> Result<asm::ResolutionState, ()> {
    let span = ast_align.header_span;
    let (number, state) = defs.told.entry(span);

    let align = defs.align_directives.get_mut(ast_align.item_ref.unwrap());
    align.align_size = number;
    asm::settle(opts, report, ctx, span, state, &mut align.resolved, &expr::Value::Unknown)
}

pub fn finalize_align(
    _report: &mut diagn::Report,
    _ast_align: &asm::AstDirectiveAlign,
    _defs: &mut asm::ItemDefs,
    _ctx: &asm::ResolverContext,
) -> Result<(), ()> {
    Ok(())
}
