//! A reservation's size is the row's number.

use crate::*;

pub fn resolve_res(
    report: &mut diagn::Report,
    opts: &asm::AssemblyOptions,
    _fileserver: &mut dyn util::FileServer,
    ast_res: &asm::AstDirectiveRes,
    _decls: &asm::ItemDecls,
    defs: &mut asm::ItemDefs,
    ctx: &asm::ResolverContext,
) -> Result<asm::ResolutionState, ()> {
    let span = ast_res.header_span;
    let (number, state) = defs.told.entry(span);
    defs.told.placed[span.node] = Some((ctx.get_output_position(defs), number));

    let res = defs.res_directives.get_mut(ast_res.item_ref.unwrap());
    res.reserve_size = number;
    asm::settle(opts, report, ctx, span, state, &mut res.resolved, &expr::Value::Unknown)
}

pub fn finalize_res(
    _report: &mut diagn::Report,
    _ast_res: &asm::AstDirectiveRes,
    _defs: &mut asm::ItemDefs,
    _ctx: &asm::ResolverContext,
) -> Result<(), ()> {
    Ok(())
}
