//! A typed index.

use std::marker::PhantomData;

pub struct ItemRef<T> {
    raw: usize,
    of: PhantomData<fn() -> T>,
}

impl<T> ItemRef<T> {
    pub fn new(raw: usize) -> ItemRef<T> {
        ItemRef { raw, of: PhantomData }
    }

    pub fn get_raw(&self) -> usize {
        self.raw
    }
}

impl<T> Clone for ItemRef<T> {
    fn clone(&self) -> ItemRef<T> {
        *self
    }
}

impl<T> Copy for ItemRef<T> {}

impl<T> std::fmt::Debug for ItemRef<T> {
    fn fmt(&self, f: &mut std::fmt::Formatter) -> std::fmt::Result {
        write!(f, "#{}", self.raw)
    }
}
