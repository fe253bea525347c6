//! Stand-in: named by `live_range.rs`. A use list is carried, never looked into.

use core::fmt;
use core::ops::Index;

use crate::function::Inst;

#[derive(Clone, Copy, Debug)]
pub struct UseKind;

impl fmt::Display for UseKind {
    fn fmt(&self, _f: &mut fmt::Formatter<'_>) -> fmt::Result {
        Ok(())
    }
}

#[derive(Clone, Copy, Debug)]
pub struct Use {
    pub pos: Inst,
    pub kind: UseKind,
}

#[derive(Clone, Copy, Debug)]
pub struct UseList;

impl UseList {
    pub fn has_fixedhint(self) -> bool {
        unreachable!()
    }
    pub fn has_livein(self) -> bool {
        unreachable!()
    }
    pub fn has_liveout(self) -> bool {
        unreachable!()
    }
    pub fn has_fixeddef(self) -> bool {
        unreachable!()
    }
    pub fn set_fixedhint(&mut self, _on: bool) {
        unreachable!()
    }
    pub fn split_at_inst(self, _at: Inst, _uses: &Uses) -> (Self, Self) {
        unreachable!()
    }
}

pub struct Uses;

impl Index<UseList> for Uses {
    type Output = [Use];
    fn index(&self, _list: UseList) -> &[Use] {
        unreachable!()
    }
}
