//! The judge: the original `move_optimizer.rs` and `dead_spill_elimination.rs`, fed
//! from document 01's sheets. This file is the crate's root as the originals expect
//! it, and the list of the judge's own modules; linking the library that is judged
//! is left to the command.

#![allow(dead_code)]

extern crate alloc;
// `core` with `debug_assert_matches!` added; see shims/core_plus.
extern crate core_plus as core;

/// What the library offers: sheet and its length, level, sweep flag, buffer and its length.
pub type Clean = unsafe extern "C" fn(*const u8, usize, u32, u32, *mut u8, usize) -> i64;

// ---- what the originals expect at the crate's root -------------------------------

macro_rules! trace {
    ($($arg:tt)*) => {
        if false {
            let _ = format_args!($($arg)*);
        }
    };
}

macro_rules! stat {
    ($stats:expr, $name:ident) => {
        $stats.$name += 1
    };
    ($stats:expr, $name:ident, $n:expr) => {
        $stats.$name += $n
    };
}

#[macro_use]
pub mod entity;
pub mod internal;
include!(concat!(env!("OUT_DIR"), "/originals_root.rs"));

/// Stand-in: `Local` is document 01's level 1.
#[derive(Clone, Copy, Debug, PartialEq, Eq)]
pub enum MoveOptimizationLevel {
    Off,
    Local,
    Forward,
    Global,
}

/// Stand-in: the counters that the compiled originals name.
#[derive(Clone, Copy, Debug, Default, PartialEq, Eq)]
pub struct Stats {
    pub blocks_preprocessed_for_optimizer: usize,
    pub optimized_redundant_reload: usize,
    pub optimized_redundant_move: usize,
    pub optimized_redundant_remat: usize,
    pub optimized_redundant_spill: usize,
    pub optimized_reload_to_move: usize,
    pub optimized_reload_to_indirect_remat: usize,
    pub optimized_stack_use: usize,
    pub eliminated_dead_spill: usize,
    pub eliminated_dead_remat: usize,
    pub operands: usize,
    pub spilled_sets: usize,
    pub spill_segments: usize,
    pub initial_spillslots: usize,
    pub final_spillslots: usize,
    pub spill_area_size: usize,
}

/// Stand-in: named by the originals; a sheet never gets near it.
#[derive(Debug)]
pub enum RegAllocError {
    FunctionTooBig,
}

/// Stand-in: named by `output.rs` only, never made.
pub struct RegisterAllocator {
    pub(crate) allocator: internal::allocator::Allocator,
    pub(crate) virt_regs: internal::virt_regs::VirtRegs,
    pub(crate) allocations: internal::allocations::Allocations,
    pub(crate) spill_allocator: internal::spill_allocator::SpillAllocator,
    pub(crate) move_resolver: internal::move_resolver::MoveResolver,
}

// ---- the judge -------------------------------------------------------------------

mod accept;
mod bench;
pub mod cli;
mod clock;
mod compare;
mod cover;
mod diff;
mod edges;
pub mod frames;
mod generate;
mod machine;
mod model;
mod mutate;
mod read;
mod requests;
mod rng;
mod rules;
pub mod run;
mod sheet;
mod small;
mod why;
mod worked;
mod worst;
