//! Stand-in: iteration over entity keys.

use core::marker::PhantomData;

use super::EntityRef;

/// Iterator over the keys `0..len`.
pub type Keys<T> = RangeKeys<T>;

#[derive(Clone)]
pub struct RangeKeys<T> {
    from: usize,
    to: usize,
    marker: PhantomData<T>,
}

impl<T: EntityRef> RangeKeys<T> {
    #[inline]
    pub fn new(from: usize, to: usize) -> Self {
        Self { from, to: to.max(from), marker: PhantomData }
    }
    #[inline]
    pub fn with_len(len: usize) -> Self {
        Self::new(0, len)
    }
}

impl<T: EntityRef> Iterator for RangeKeys<T> {
    type Item = T;
    #[inline]
    fn next(&mut self) -> Option<T> {
        if self.from < self.to {
            self.from += 1;
            Some(T::new(self.from - 1))
        } else {
            None
        }
    }
    #[inline]
    fn size_hint(&self) -> (usize, Option<usize>) {
        (self.to - self.from, Some(self.to - self.from))
    }
}

impl<T: EntityRef> DoubleEndedIterator for RangeKeys<T> {
    #[inline]
    fn next_back(&mut self) -> Option<T> {
        if self.from < self.to {
            self.to -= 1;
            Some(T::new(self.to))
        } else {
            None
        }
    }
}

impl<T: EntityRef> ExactSizeIterator for RangeKeys<T> {}
