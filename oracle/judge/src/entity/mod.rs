//! The module list of the originals' `entity/mod.rs`, with stand-ins for the five
//! files that are not there.

#[macro_use]
pub mod base;
pub mod compact_list;
pub mod iter;
pub mod primary_map;
pub mod secondary_map;

include!(concat!(env!("OUT_DIR"), "/originals_entity.rs"));

pub use base::{EntityRange, EntityRef};
pub use compact_list::{CompactList, CompactListPool};
pub use packed_option::{PackedOption, ReservedValue};
pub use primary_map::PrimaryMap;
pub use secondary_map::SecondaryMap;
pub use set::EntitySet;
pub use small_set::SmallEntitySet;
pub use sparse::SparseMap;
