//! An assert has the state that the row gives. A probe is always resolved: it counts the passes and sees the positions.

use crate::*;

pub fn resolve_assert(
    report: &mut diagn::Report,
    opts: &asm::AssemblyOptions,
    _fileserver: &mut dyn util::FileServer,
    ast_assert: &asm::AstDirectiveAssert,
    _decls: &asm::ItemDecls,
    defs: &mut asm::ItemDefs,
    ctx: &asm::ResolverContext,
) -> Result<asm::ResolutionState, ()> {
    let span = ast_assert.header_span;

    match ast_assert.probe {
        asm::Probe::No => {
            let (_, state) = defs.told.entry(span);
            let mut is_resolved = false;
            asm::settle(opts, report, ctx, span, state, &mut is_resolved, &expr::Value::Unknown)
        }
        asm::Probe::PassBegins => {
            defs.told.passes += 1;
            Ok(asm::ResolutionState::Resolved)
        }
        asm::Probe::NodeDone => {
            watch(report, span, ctx)?;
            Ok(asm::ResolutionState::Resolved)
        }
    }
}

/// A position past the limit is document 01's refusal 5.
pub fn watch(report: &mut diagn::Report, span: diagn::Span, ctx: &asm::ResolverContext) -> Result<(), ()> {
    if ctx.bank_data.cur_position > asm::MAX_POSITION {
        report.leaves_domain("5", span)?;
    }

    Ok(())
}
