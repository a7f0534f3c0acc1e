//! The supplied `bitvec.rs` and `overlap_checker.rs`, and stand-ins for the rest of `util`.

mod bigint;
pub use bigint::BigInt;

mod bitvec;
pub use bitvec::{BitVec, BitVecBlock, BitVecSpan};

mod overlap_checker;
pub use overlap_checker::OverlapChecker;

mod item_ref;
pub use item_ref::ItemRef;

mod fileserver;
pub use fileserver::{FileServer, FileServerHandle, FileServerMock};

#[derive(Debug)]
pub struct SymbolContext;

impl SymbolContext {
    pub const fn new_global() -> SymbolContext {
        SymbolContext
    }
}
