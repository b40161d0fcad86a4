//! Lists and want of memory, as the crate `entries` has them.
#![allow(warnings)]

pub use stand_in::NoMemory;
use stand_in::Vec;

#[derive(Debug)]
pub struct Entries<T> {
    items: Vec<T>,
}

impl<T> Entries<T> {
    pub fn from_vec(items: Vec<T>) -> Self {
        Entries { items }
    }

    pub fn into_vec(self) -> Vec<T> {
        self.items
    }

    pub fn as_slice(&self) -> &[T] {
        self.items.as_slice()
    }

    pub fn set(&mut self, index: usize, value: T) {
        self.items[index] = value;
    }

    pub fn len(&self) -> usize {
        self.items.len()
    }

    pub fn is_empty(&self) -> bool {
        self.items.is_empty()
    }
}
