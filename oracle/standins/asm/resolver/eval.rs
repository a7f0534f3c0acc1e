//! Only literals are evaluated; the other names are asked for and never used.

use crate::*;

pub fn eval_certain(
    _report: &mut diagn::Report,
    _opts: &asm::AssemblyOptions,
    _decls: &asm::ItemDecls,
    _defs: &asm::ItemDefs,
    expr: &expr::Expr,
) -> Result<expr::Value, ()> {
    Ok(expr.value.clone())
}

macro_rules! unused {
    ($($name:ident),*) => {
        $(pub fn $name() {
            unreachable!()
        })*
    };
}

unused!(
    eval,
    eval_simple,
    eval_ctxlabel,
    eval_variable,
    eval_variable_simple,
    eval_variable_certain,
    eval_member,
    resolve_builtin_symbol
);
