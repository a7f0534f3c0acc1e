//! What a form 1 file tells of its nodes, in place of expressions to evaluate; and what is seen of them on the way.

use crate::*;

/// A bank position above this is document 01's refusal 5, of which the Rust knows nothing.
pub const MAX_POSITION: usize = 4_294_967_295;

/// A row's number and state for a node.
pub type Entry = (u32, u8);

pub struct Told {
    /// The operand of each node.
    pub operands: Vec<u32>,
    pub rows: Vec<Vec<Entry>>,
    pub values: Vec<u8>,
    /// Passes begun.
    pub passes: usize,
    /// For each node that places something: its output position, if its bank has one, and its size in the newest pass.
    pub placed: Vec<Option<(Option<usize>, usize)>>,
}

impl Told {
    /// Pass n reads row n, or the last row if there are fewer.
    pub fn entry(&self, span: diagn::Span) -> (usize, u8) {
        let row = self.passes.min(self.rows.len()) - 1;
        let (number, state) = self.rows[row][span.node];
        (number as usize, state)
    }

    /// Data of declared size has its number from the first row.
    pub fn declared(&self, span: diagn::Span) -> usize {
        self.rows[0][span.node].0 as usize
    }

    /// The item's bits, as an integer of that size; kept as it is if it has that size already.
    pub fn encode(&self, span: diagn::Span, size: usize, encoding: &mut expr::Value) {
        if let expr::Value::Integer(_, bigint) = encoding {
            if bigint.size == Some(size) {
                return;
            }
        }

        let start = self.operands[span.node] as usize;
        *encoding = expr::Value::make_integer(util::BigInt::from_bits(&self.values, start, size));
    }
}

/// The state that the row gives, through the Rust's own rule.
pub fn settle(
    opts: &asm::AssemblyOptions,
    report: &mut diagn::Report,
    ctx: &asm::ResolverContext,
    span: diagn::Span,
    state: u8,
    is_resolved: &mut bool,
    value: &expr::Value,
) -> Result<asm::ResolutionState, ()> {
    *is_resolved = false;

    asm::resolver::handle_value_resolution(
        opts,
        report,
        span,
        ctx.can_guess(),
        state != 0,
        state == 1,
        is_resolved,
        false,
        "node",
        "node",
        None,
        value,
    )
}
