//! The originals' `internal` modules that the two passes lean on, with stand-ins
//! for the files that are not there.

include!(concat!(env!("OUT_DIR"), "/originals_internal.rs"));

pub mod allocator;
pub mod coalescing;
pub mod move_resolver;
pub mod uses;
pub mod value_live_ranges;
pub mod virt_regs;
