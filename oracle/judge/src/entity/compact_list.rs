//! Stand-in: lists kept in a pool. Only indirect rematerialisation makes one.

use core::marker::PhantomData;

pub struct CompactListPool<T> {
    all: alloc::vec::Vec<T>,
}

impl<T> CompactListPool<T> {
    pub const fn new() -> Self {
        Self { all: alloc::vec::Vec::new() }
    }
    pub fn clear(&mut self) {
        self.all.clear();
    }
}

/// Where a list begins in its pool, and how long it is.
#[derive(Debug)]
pub struct CompactList<T> {
    at: u32,
    len: u32,
    marker: PhantomData<T>,
}

impl<T> Clone for CompactList<T> {
    fn clone(&self) -> Self {
        *self
    }
}

impl<T> Copy for CompactList<T> {}

impl<T> CompactList<T> {
    pub fn from_iter(iter: impl IntoIterator<Item = T>, pool: &mut CompactListPool<T>) -> Self {
        let at = pool.all.len();
        pool.all.extend(iter);
        Self { at: at as u32, len: (pool.all.len() - at) as u32, marker: PhantomData }
    }
    pub fn as_slice<'a>(&self, pool: &'a CompactListPool<T>) -> &'a [T] {
        &pool.all[self.at as usize..][..self.len as usize]
    }
}
