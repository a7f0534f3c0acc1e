//! The syntax tree, as far as the supplied files look into it.

use crate::*;
use util::ItemRef;

pub struct AstTopLevel {
    pub nodes: Vec<AstAny>,
}

pub enum AstAny {
    DirectiveAddr(AstDirectiveAddr),
    DirectiveAlign(AstDirectiveAlign),
    DirectiveAssert(AstDirectiveAssert),
    DirectiveBank(AstDirectiveBank),
    DirectiveBankdef(AstDirectiveBankdef),
    DirectiveBits(()),
    DirectiveData(AstDirectiveData),
    DirectiveFn(()),
    DirectiveIf(()),
    DirectiveInclude(()),
    DirectiveLabelAlign(()),
    DirectiveNoEmit(()),
    DirectiveOnce(()),
    DirectiveRes(AstDirectiveRes),
    DirectiveRuledef(()),
    Instruction(AstInstruction),
    Symbol(AstSymbol),
}

pub struct AstDirectiveAddr {
    pub item_ref: Option<ItemRef<asm::AddrDirective>>,
    pub header_span: diagn::Span,
}

pub struct AstDirectiveAlign {
    pub item_ref: Option<ItemRef<asm::AlignDirective>>,
    pub header_span: diagn::Span,
    pub expr: expr::Expr,
}

/// An assert of the file, or a probe: an assert that the judge puts before the first node to count the passes, or after each
/// to see the positions on the way.
pub struct AstDirectiveAssert {
    pub header_span: diagn::Span,
    pub probe: Probe,
}

#[derive(Copy, Clone, PartialEq)]
pub enum Probe {
    No,
    PassBegins,
    NodeDone,
}

pub struct AstDirectiveBank {
    pub item_ref: Option<ItemRef<asm::Bankdef>>,
    pub header_span: diagn::Span,
}

pub struct AstDirectiveBankdef {
    pub item_ref: Option<ItemRef<asm::Bankdef>>,
    pub header_span: diagn::Span,
    pub addr_unit: Option<expr::Expr>,
    pub label_align: Option<expr::Expr>,
    pub addr_start: Option<expr::Expr>,
    pub addr_size: Option<expr::Expr>,
    pub addr_end: Option<expr::Expr>,
    pub output_offset: Option<expr::Expr>,
    pub fill: bool,
    pub userdata: Option<expr::Expr>,
}

pub struct AstDirectiveData {
    pub item_refs: Vec<ItemRef<asm::DataElement>>,
    pub header_span: diagn::Span,
    pub elems: Vec<expr::Expr>,
}

pub struct AstDirectiveRes {
    pub item_ref: Option<ItemRef<asm::ResDirective>>,
    pub header_span: diagn::Span,
}

pub struct AstInstruction {
    pub item_ref: Option<ItemRef<asm::Instruction>>,
    pub span: diagn::Span,
}

pub struct AstSymbol {
    pub item_ref: Option<ItemRef<asm::Symbol>>,
    pub decl_span: diagn::Span,
    pub kind: AstSymbolKind,
}

pub enum AstSymbolKind {
    Constant(()),
    Label,
}
