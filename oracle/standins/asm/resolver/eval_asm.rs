//! Asked for and never used.

pub fn eval_asm() {
    unreachable!()
}
