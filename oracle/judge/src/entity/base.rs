//! Stand-in: `EntityRef`, `EntityRange`, `entity_def!`.

use super::iter::RangeKeys;

pub trait EntityRef: Copy + Eq {
    fn new(index: usize) -> Self;
    fn index(self) -> usize;
}

/// A half-open range of entities.
#[derive(Clone, Copy, PartialEq, Eq, Debug)]
pub struct EntityRange<T> {
    pub from: T,
    pub to: T,
}

impl<T: EntityRef> EntityRange<T> {
    pub fn new(from: T, to: T) -> Self {
        Self { from, to }
    }
    pub fn is_empty(self) -> bool {
        self.from.index() >= self.to.index()
    }
    pub fn iter(self) -> RangeKeys<T> {
        RangeKeys::new(self.from.index(), self.to.index())
    }
    pub fn last(self) -> T {
        T::new(self.to.index() - 1)
    }
}

macro_rules! entity_def {
    () => {};
    ($(#[$attr:meta])* $vis:vis entity $name:ident($ty:ident); $($rest:tt)*) => {
        entity_def! { @one [$(#[$attr])*] [$vis] $name $ty stringify!($name) }
        entity_def! { $($rest)* }
    };
    ($(#[$attr:meta])* $vis:vis entity $name:ident($ty:ident, $prefix:literal); $($rest:tt)*) => {
        entity_def! { @one [$(#[$attr])*] [$vis] $name $ty $prefix }
        entity_def! { $($rest)* }
    };
    (@one [$($attr:tt)*] [$vis:vis] $name:ident $ty:ident $prefix:expr) => {
        $($attr)*
        #[derive(Clone, Copy, PartialEq, Eq, PartialOrd, Ord, Hash)]
        $vis struct $name($ty);

        #[allow(dead_code)]
        impl $name {
            #[inline]
            pub const fn new(index: usize) -> Self {
                debug_assert!(index < $ty::MAX as usize);
                Self(index as $ty)
            }
            #[inline]
            pub const fn index(self) -> usize {
                self.0 as usize
            }
        }

        impl crate::entity::EntityRef for $name {
            #[inline]
            fn new(index: usize) -> Self {
                Self::new(index)
            }
            #[inline]
            fn index(self) -> usize {
                self.0 as usize
            }
        }

        impl crate::entity::packed_option::ReservedValue for $name {
            #[inline]
            fn reserved_value() -> Self {
                Self($ty::MAX)
            }
            #[inline]
            fn is_reserved_value(&self) -> bool {
                self.0 == $ty::MAX
            }
        }

        impl ::core::fmt::Display for $name {
            fn fmt(&self, f: &mut ::core::fmt::Formatter<'_>) -> ::core::fmt::Result {
                write!(f, "{}{}", $prefix, self.0)
            }
        }

        impl ::core::fmt::Debug for $name {
            fn fmt(&self, f: &mut ::core::fmt::Formatter<'_>) -> ::core::fmt::Result {
                write!(f, "{}{}", $prefix, self.0)
            }
        }
    };
}
