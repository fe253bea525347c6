//! Stand-in: vector of values for existing keys.

use alloc::vec::Vec;
use core::marker::PhantomData;
use core::ops::{Index, IndexMut};

use super::EntityRef;

#[derive(Clone)]
pub struct SecondaryMap<K, V> {
    elems: Vec<V>,
    marker: PhantomData<K>,
}

impl<K: EntityRef, V> SecondaryMap<K, V> {
    #[inline]
    pub const fn new() -> Self {
        Self { elems: Vec::new(), marker: PhantomData }
    }
    /// Grows (never shrinks); existing elements stay.
    #[inline]
    pub fn grow_to(&mut self, n: usize)
    where
        V: Default,
    {
        self.grow_to_with(n, V::default);
    }
    #[inline]
    pub fn grow_to_with(&mut self, n: usize, f: impl FnMut() -> V) {
        if n > self.elems.len() {
            self.elems.resize_with(n, f);
        }
    }
    #[inline]
    pub fn clear_and_resize(&mut self, n: usize)
    where
        V: Default,
    {
        self.clear_and_resize_with(n, V::default);
    }
    #[inline]
    pub fn clear_and_resize_with(&mut self, n: usize, f: impl FnMut() -> V) {
        self.elems.clear();
        self.elems.resize_with(n, f);
    }
    #[inline]
    pub fn values_mut(&mut self) -> core::slice::IterMut<'_, V> {
        self.elems.iter_mut()
    }
}

impl<K: EntityRef, V> Default for SecondaryMap<K, V> {
    fn default() -> Self {
        Self::new()
    }
}

impl<K: EntityRef, V> Index<K> for SecondaryMap<K, V> {
    type Output = V;
    #[inline]
    #[track_caller]
    fn index(&self, k: K) -> &V {
        &self.elems[k.index()]
    }
}

impl<K: EntityRef, V> IndexMut<K> for SecondaryMap<K, V> {
    #[inline]
    #[track_caller]
    fn index_mut(&mut self, k: K) -> &mut V {
        &mut self.elems[k.index()]
    }
}
