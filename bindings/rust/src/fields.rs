//! The fields of a row: how each is read, and how a list and a `-` are written. Reading is loose here, since
//! what was read counts only if it is written again as the same bytes.

use std::fmt::{self, Display};

/// What a field can be.
pub(crate) trait Field: Sized {
    /// `None` where the field is no such thing.
    fn read(field: &str) -> Option<Self>;
}

impl Field for u32 {
    fn read(field: &str) -> Option<Self> {
        field.parse().ok()
    }
}

impl Field for usize {
    fn read(field: &str) -> Option<Self> {
        field.parse().ok()
    }
}

impl Field for bool {
    fn read(field: &str) -> Option<Self> {
        match field {
            "0" => Some(false),
            "1" => Some(true),
            _ => None,
        }
    }
}

impl<T: Field> Field for Option<T> {
    fn read(field: &str) -> Option<Self> {
        match field {
            "-" => Some(None),
            _ => T::read(field).map(Some),
        }
    }
}

/// The members of a list.
pub(crate) fn list<T: Field>(fields: &[&str]) -> Option<Vec<T>> {
    fields.iter().map(|field| T::read(field)).collect()
}

/// The rows of some bytes, each as its fields; `None` where they are no text or the last row does not end.
pub(crate) fn rows(bytes: &[u8]) -> Option<impl Iterator<Item = Vec<&str>>> {
    let text = std::str::from_utf8(bytes).ok()?.strip_suffix("\r\n")?;
    Some(text.split("\r\n").map(|row| row.split(',').collect()))
}

/// A list is written with a comma before each member.
pub(crate) struct List<'a, T>(pub &'a [T]);

impl<T: Display> Display for List<'_, T> {
    fn fmt(&self, f: &mut fmt::Formatter<'_>) -> fmt::Result {
        self.0.iter().try_for_each(|member| write!(f, ",{member}"))
    }
}

/// None is written as `-`.
pub(crate) struct OrDash<T>(pub Option<T>);

impl<T: Display> Display for OrDash<T> {
    fn fmt(&self, f: &mut fmt::Formatter<'_>) -> fmt::Result {
        match &self.0 {
            Some(field) => field.fmt(f),
            None => f.write_str("-"),
        }
    }
}
