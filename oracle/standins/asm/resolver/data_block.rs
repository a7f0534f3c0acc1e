//! Data of declared size has `elem_size`; data of open size has its size from its encoding.

use crate::*;

pub fn resolve_data_element(
    report: &mut diagn::Report,
    opts: &asm::AssemblyOptions,
    _fileserver: &mut dyn util::FileServer,
    ast_data: &asm::AstDirectiveData,
    elem_index: usize,
    _decls: &asm::ItemDecls,
    defs: &mut asm::ItemDefs,
    ctx: &asm::ResolverContext,
) -> Result<asm::ResolutionState, ()> {
    let span = ast_data.elems[elem_index].span();
    let (number, state) = defs.told.entry(span);
    let position = ctx.get_output_position(defs);

    let elem = defs.data_elems.get_mut(ast_data.item_refs[elem_index]);
    let size = elem.elem_size.unwrap_or(number);
    defs.told.placed[span.node] = Some((position, size));
    defs.told.encode(span, size, &mut elem.encoding);
    asm::settle(opts, report, ctx, span, state, &mut elem.resolved, &elem.encoding)
}

pub fn check_final_data_element<'defs>(
    _report: &mut diagn::Report,
    _span: diagn::Span,
    elem: &'defs asm::DataElement,
) -> Result<&'defs util::BigInt, ()> {
    Ok(elem.encoding.unwrap_bigint())
}
