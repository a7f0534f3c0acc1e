//! An instruction's encoding has the row's number as its size.

use crate::*;

pub fn resolve_instruction(
    report: &mut diagn::Report,
    opts: &asm::AssemblyOptions,
    _fileserver: &mut dyn util::FileServer,
    ast_instr: &asm::AstInstruction,
    _decls: &asm::ItemDecls,
    defs: &mut asm::ItemDefs,
    ctx: &asm::ResolverContext,
) -> Result<asm::ResolutionState, ()> {
    let span = ast_instr.span;
    let (size, state) = defs.told.entry(span);
    defs.told.placed[span.node] = Some((ctx.get_output_position(defs), size));

    let instr = defs.instructions.get_mut(ast_instr.item_ref.unwrap());
    defs.told.encode(span, size, &mut instr.encoding);
    asm::settle(opts, report, ctx, span, state, &mut instr.resolved, &instr.encoding)
}

pub fn finalize_instruction<'defs>(
    _report: &mut diagn::Report,
    _span: diagn::Span,
    instr: &'defs asm::Instruction,
) -> Result<&'defs util::BigInt, ()> {
    Ok(instr.encoding.unwrap_bigint())
}
