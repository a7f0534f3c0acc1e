//! An address is given as the row's number, the position in bits from the bank's start.

use crate::*;

pub fn resolve_addr(
    report: &mut diagn::Report,
    opts: &asm::AssemblyOptions,
    _fileserver: &mut dyn util::FileServer,
    ast_addr: &asm::AstDirectiveAddr,
    _decls: &asm::ItemDecls,
    defs: &mut asm::ItemDefs,
    ctx: &asm::ResolverContext,
) -> Result<asm::ResolutionState, ()> {
    let span = ast_addr.header_span;
    let (number, state) = defs.told.entry(span);

    let addr = defs.addr_directives.get_mut(ast_addr.item_ref.unwrap());
    addr.offset_from_bank_start_in_bits = number;
    asm::settle(opts, report, ctx, span, state, &mut addr.resolved, &expr::Value::Unknown)
}

pub fn finalize_addr(
    _report: &mut diagn::Report,
    _ast_addr: &asm::AstDirectiveAddr,
    _defs: &mut asm::ItemDefs,
    _ctx: &asm::ResolverContext,
) -> Result<(), ()> {
    Ok(())
}
