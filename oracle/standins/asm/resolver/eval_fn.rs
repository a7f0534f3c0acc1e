//! Asked for and never used.

pub struct AsmBuiltinFn;

pub fn resolve_builtin_fn() {
    unreachable!()
}

pub fn get_builtin_fn_eval() {
    unreachable!()
}

pub fn eval_fn() {
    unreachable!()
}
