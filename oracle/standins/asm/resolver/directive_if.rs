//! Form 1 has no conditions: these names are asked for and never used.

pub fn resolve_ifs() {
    unreachable!()
}

pub fn check_leftover_ifs() {
    unreachable!()
}
