//! A constant has no value here, only the state that the row gives.

use crate::*;

pub fn resolve_constants_simple() {
    unreachable!()
}

pub fn resolve_constant(
    report: &mut diagn::Report,
    opts: &asm::AssemblyOptions,
    _fileserver: &mut dyn util::FileServer,
    ast_symbol: &asm::AstSymbol,
    _decls: &asm::ItemDecls,
    defs: &mut asm::ItemDefs,
    ctx: &asm::ResolverContext,
) -> Result<asm::ResolutionState, ()> {
    let span = ast_symbol.decl_span;
    super::assert::watch(report, span, ctx)?;

    let (_, state) = defs.told.entry(span);
    let symbol = defs.symbols.get_mut(ast_symbol.item_ref.unwrap());
    asm::settle(opts, report, ctx, span, state, &mut symbol.resolved, &symbol.value)
}
