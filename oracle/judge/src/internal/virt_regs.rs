//! Stand-in: named by `output.rs` only, never run.

use super::live_range::ValueSegment;

entity_def! {
    pub entity VirtReg(u32, "vreg");
}

pub struct VirtRegs;

impl VirtRegs {
    pub fn segments(&self, _vreg: VirtReg) -> &[ValueSegment] {
        unreachable!()
    }
}
