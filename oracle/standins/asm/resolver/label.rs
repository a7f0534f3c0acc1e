//! Document 01's **added** rule, over the Rust's own `eval_address`: a label is resolved when its position is known and on
//! a boundary, stable when its address equals that of the pass before. Before pass 1 it has no address.

use crate::*;

pub fn resolve_label(
    report: &mut diagn::Report,
    opts: &asm::AssemblyOptions,
    ast_symbol: &asm::AstSymbol,
    _decls: &asm::ItemDecls,
    defs: &mut asm::ItemDefs,
    ctx: &asm::ResolverContext,
) -> Result<asm::ResolutionState, ()> {
    let span = ast_symbol.decl_span;
    super::assert::watch(report, span, ctx)?;

    let value = ctx.eval_address(report, span, defs, ctx.can_guess())?;

    let symbol = defs.symbols.get_mut(ast_symbol.item_ref.unwrap());
    let is_stable = value.is_same_number(&symbol.value);
    symbol.value = value;

    super::handle_value_resolution(
        opts,
        report,
        span,
        ctx.can_guess(),
        !symbol.value.is_statically_known(),
        is_stable,
        &mut symbol.resolved,
        false,
        "label",
        "label address",
        None,
        &symbol.value,
    )
}
