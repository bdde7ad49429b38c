// Of aq_base: lists, and want of memory.
use crate::shim::*;

#[derive(Clone, Copy, Debug, PartialEq, Eq)]
pub struct Memory;
impl From<AllocError> for Memory {
    fn from(_: AllocError) -> Self {
        Memory
    }
}
impl<T> From<AllocFailed<T>> for Memory {
    fn from(_: AllocFailed<T>) -> Self {
        Memory
    }
}

#[derive(Debug, PartialEq)]
pub struct List<T> {
    items: Vec<T>,
}
pub type Bytes = List<u8>;

impl<T> List<T> {
    pub fn new(alloc: Global) -> Self {
        List {
            items: Vec::new(alloc),
        }
    }
    pub fn push(&mut self, item: T) -> Result<(), Memory> {
        self.items.push(item)?;
        Ok(())
    }
    pub fn len(&self) -> usize {
        self.items.len()
    }
    pub fn get(&self, index: usize) -> &T {
        &self.items[index]
    }
    pub fn set(&mut self, index: usize, item: T) {
        self.items[index] = item;
    }
    pub fn from_vec(items: Vec<T>) -> Self {
        List { items }
    }
    pub fn into_vec(self) -> Vec<T> {
        self.items
    }
    pub fn as_slice(&self) -> &[T] {
        self.items.as_slice()
    }
    pub fn clone(&self) -> Result<List<T>, AllocError>
    where
        T: Clone,
    {
        Ok(List {
            items: self.items.clone()?,
        })
    }
}
