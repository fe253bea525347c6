//! Stand-in: which value set a value is in. run.rs gives each slot a set of its own,
//! and one more, never spilled, to the values without a home slot.

use super::value_live_ranges::ValueSet;
use crate::function::Value;

pub struct Coalescing {
    pub sets: alloc::vec::Vec<ValueSet>,
}

impl Coalescing {
    pub fn set_for_value(&mut self, value: Value) -> ValueSet {
        self.sets[value.index()]
    }
}
