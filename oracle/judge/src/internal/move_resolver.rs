//! Stand-in: the edit list and the parameter list. `Edit` and the accessors are the
//! original's, cut out at build time; making the moves leans on files that are not
//! there.

use core::fmt;

use crate::entity::CompactList;
use crate::function::{Block, Inst, Value};
use crate::output::{Allocation, SpillSlot};
use crate::reginfo::PhysReg;

#[derive(Clone)]
pub struct MoveResolver {
    pub edits: alloc::vec::Vec<(Inst, Option<Edit>)>,
    pub blockparam_allocs: alloc::vec::Vec<(Block, Value, Allocation)>,
}

include!(concat!(env!("OUT_DIR"), "/move_resolver_part.rs"));
