//! Declarations: names, depths and places, by the item's number.

use crate::*;

pub struct Decl {
    pub name: String,
    pub span: diagn::Span,
    pub depth: usize,
    pub ctx: util::SymbolContext,
}

pub struct DeclList<T> {
    decls: Vec<Decl>,
    of: std::marker::PhantomData<fn() -> T>,
}

impl<T> DeclList<T> {
    pub fn new() -> DeclList<T> {
        DeclList { decls: Vec::new(), of: std::marker::PhantomData }
    }

    pub fn declare(&mut self, name: String, node: usize, depth: usize) -> util::ItemRef<T> {
        self.decls.push(Decl { name, span: diagn::Span::new(node), depth, ctx: util::SymbolContext::new_global() });
        util::ItemRef::new(self.decls.len() - 1)
    }

    pub fn get(&self, item_ref: util::ItemRef<T>) -> &Decl {
        &self.decls[item_ref.get_raw()]
    }
}

pub struct ItemDecls {
    pub bankdefs: DeclList<asm::Bankdef>,
    pub symbols: DeclList<asm::Symbol>,
}

impl ItemDecls {
    pub fn new() -> ItemDecls {
        ItemDecls { bankdefs: DeclList::new(), symbols: DeclList::new() }
    }
}
