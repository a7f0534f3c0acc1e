//! Definitions, by the item's number. `bankdef.rs` is supplied; the others have the fields that the supplied files read.

use crate::*;
use util::ItemRef;

mod bankdef;
pub use bankdef::{define as define_banks, Bankdef};

pub struct DefList<T> {
    pub defs: Vec<T>,
}

impl<T> DefList<T> {
    pub fn new() -> DefList<T> {
        DefList { defs: Vec::new() }
    }

    pub fn len(&self) -> usize {
        self.defs.len()
    }

    pub fn define(&mut self, item_ref: ItemRef<T>, def: T) {
        assert_eq!(item_ref.get_raw(), self.defs.len());
        self.defs.push(def);
    }

    pub fn add(&mut self, def: T) -> ItemRef<T> {
        self.defs.push(def);
        ItemRef::new(self.defs.len() - 1)
    }

    pub fn get(&self, item_ref: ItemRef<T>) -> &T {
        &self.defs[item_ref.get_raw()]
    }

    pub fn get_mut(&mut self, item_ref: ItemRef<T>) -> &mut T {
        &mut self.defs[item_ref.get_raw()]
    }
}

pub struct Symbol {
    pub value: expr::Value,
    pub resolved: bool,
}

pub struct Instruction {
    pub encoding: expr::Value,
    pub encoding_size_guess: Option<usize>,
    pub resolved: bool,
}

pub struct DataElement {
    pub elem_size: Option<usize>,
    pub encoding: expr::Value,
    pub resolved: bool,
}

pub struct ResDirective {
    pub reserve_size: usize,
    pub resolved: bool,
}

pub struct AlignDirective {
    pub align_size: usize,
    pub resolved: bool,
}

pub struct AddrDirective {
    pub offset_from_bank_start_in_bits: usize,
    pub resolved: bool,
}

pub struct ItemDefs {
    pub bankdefs: DefList<Bankdef>,
    pub symbols: DefList<Symbol>,
    pub instructions: DefList<Instruction>,
    pub data_elems: DefList<DataElement>,
    pub res_directives: DefList<ResDirective>,
    pub align_directives: DefList<AlignDirective>,
    pub addr_directives: DefList<AddrDirective>,
    pub told: asm::Told,
}

impl ItemDefs {
    pub fn new(told: asm::Told) -> ItemDefs {
        ItemDefs {
            bankdefs: DefList::new(),
            symbols: DefList::new(),
            instructions: DefList::new(),
            data_elems: DefList::new(),
            res_directives: DefList::new(),
            align_directives: DefList::new(),
            addr_directives: DefList::new(),
            told,
        }
    }
}
