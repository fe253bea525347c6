//! Stand-in: the set number type of the spill allocator.

entity_def! {
    pub entity ValueSet(u32, "set");
}
