//! Stand-in: vector that hands out its keys.

use alloc::vec::Vec;
use core::marker::PhantomData;
use core::ops::{Index, IndexMut};

use super::EntityRef;
use super::iter::Keys;

pub struct PrimaryMap<K, V> {
    elems: Vec<V>,
    marker: PhantomData<K>,
}

impl<K: EntityRef, V> PrimaryMap<K, V> {
    pub const fn new() -> Self {
        Self { elems: Vec::new(), marker: PhantomData }
    }
    #[inline]
    pub fn push(&mut self, v: V) -> K {
        self.elems.push(v);
        K::new(self.elems.len() - 1)
    }
    #[inline]
    pub fn clear(&mut self) {
        self.elems.clear();
    }
    #[inline]
    pub fn len(&self) -> usize {
        self.elems.len()
    }
    pub fn keys(&self) -> Keys<K> {
        Keys::with_len(self.elems.len())
    }
    pub fn iter_mut(&mut self) -> impl Iterator<Item = (K, &mut V)> {
        self.elems.iter_mut().enumerate().map(|(i, v)| (K::new(i), v))
    }
}

impl<K: EntityRef, V> Index<K> for PrimaryMap<K, V> {
    type Output = V;
    #[inline]
    #[track_caller]
    fn index(&self, k: K) -> &V {
        &self.elems[k.index()]
    }
}

impl<K: EntityRef, V> IndexMut<K> for PrimaryMap<K, V> {
    #[inline]
    #[track_caller]
    fn index_mut(&mut self, k: K) -> &mut V {
        &mut self.elems[k.index()]
    }
}
