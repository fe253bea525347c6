//! Feeds an accepted sheet to the originals and writes the answer: the call of
//! document 01 as the Rust decides it. Reading and accepting are left to read.rs
//! and accept.rs.

use std::panic::{self, AssertUnwindSafe};

use crate::entity::{CompactList, CompactListPool, ReservedValue};
use crate::frames::{Answer, Case};
use crate::function::{Block, Function, Inst, Value};
use crate::internal::allocations::Allocations;
use crate::internal::coalescing::Coalescing;
use crate::internal::dead_spill_elimination::DeadSpillElimination;
use crate::internal::live_range::{LiveRangeSegment, Slot, ValueSegment};
use crate::internal::move_optimizer::MoveOptimizer;
use crate::internal::move_resolver::{Edit as RustEdit, MoveResolver};
use crate::internal::spill_allocator::SpillAllocator;
use crate::internal::uses::UseList;
use crate::internal::value_live_ranges::ValueSet;
use crate::machine::{SheetFunc, SheetRegs};
use crate::output::{Allocation, AllocationKind, SpillSlot};
use crate::read::read;
use crate::reginfo::{PhysReg, SpillSlotSize};
use crate::requests;
use crate::sheet::{self, Edit, Inputs, Place, Sheet};
use crate::{MoveOptimizationLevel, Stats};

// ---- the call --------------------------------------------------------------------

/// The answer's bytes, or the refusal: 100 times the row plus the number.
pub fn call(c: &Case) -> Result<Vec<u8>, u32> {
    let out = write(&run(&accept(c)?, c.level, c.sweep));
    if out.len() > c.cap { Err(8) } else { Ok(out) }
}

/// The sheet of a case that no number but 8 may refuse.
pub fn accept(c: &Case) -> Result<Sheet, u32> {
    if c.level > 3 || c.sweep > 1 {
        return Err(7);
    }
    let sheet = read(&c.sheet).map_err(|_| 1u32)?;
    match sheet.refusal() {
        Some(n) => Err(n),
        None => Ok(sheet),
    }
}

/// `call`, with a panic of the originals as an answer of its own.
pub fn answer(c: &Case) -> Answer {
    match panic::catch_unwind(AssertUnwindSafe(|| call(c))) {
        Ok(Ok(b)) => Answer::Ret(b.len() as i64, b),
        Ok(Err(n)) => Answer::Ret(-(n as i64), vec![]),
        Err(e) => {
            let text = e.downcast_ref::<String>().map(|s| s.as_str());
            let text = text.or_else(|| e.downcast_ref::<&str>().copied());
            Answer::Panic(text.unwrap_or_default().into())
        }
    }
}

/// The originals on an accepted sheet.
pub fn run(sheet: &Sheet, level: u32, sweep_flag: u32) -> Outcome {
    let mut p = build(sheet);
    optimise(&mut p, &mut MoveOptimizer::new(), level);
    if sweep_flag == 1 {
        sweep(&mut p, &mut DeadSpillElimination::new());
    }
    outcome(&p)
}

/// `run`, or `None` where the originals panic.
pub fn try_run(sheet: &Sheet, level: u32, sweep_flag: u32) -> Option<Outcome> {
    panic::catch_unwind(AssertUnwindSafe(|| run(sheet, level, sweep_flag))).ok()
}

// ---- building --------------------------------------------------------------------

/// What the two passes work on.
pub struct Prepared {
    pub func: SheetFunc,
    pub regs: SheetRegs,
    pub allocations: Allocations,
    pub before: Vec<Allocation>,
    pub resolver: MoveResolver,
    pub spill: SpillAllocator,
    pub coalescing: Coalescing,
    pub stats: Stats,
}

fn alloc_of(p: Place) -> Allocation {
    match p {
        Place::Reg(r) => Allocation::reg(PhysReg::new(r as usize)),
        Place::Slot(s) => Allocation::spillslot(SpillSlot::new(s as usize)),
    }
}

fn place_of(a: Allocation) -> Place {
    match a.kind() {
        AllocationKind::PhysReg(r) => Place::Reg(r.index() as u32),
        AllocationKind::SpillSlot(s) => Place::Slot(s.index() as u32),
    }
}

/// The original spill allocator, brought to hand out slot k to value set k: all
/// sets overlap, and set k starts at instruction k.
fn build_spill(sheet: &Sheet) -> (SpillAllocator, Coalescing) {
    let slots = sheet.slots as usize;
    let mut spill = SpillAllocator::new();
    spill.clear(&SheetFunc::of_values(slots + 1));
    for s in 0..slots {
        let start = Inst::new(s).slot(Slot::Boundary);
        let end = Inst::new(slots + 1).slot(Slot::Boundary);
        let live_range = LiveRangeSegment::new(start, end);
        let set = ValueSet::new(s);
        spill.set_range(set, SpillSlotSize::new(1), live_range);
        let segment = ValueSegment { live_range, use_list: UseList, value: Value::new(0) };
        spill.spill_segment(set, segment);
    }
    spill.allocate(&mut Stats::default()).unwrap();
    assert_eq!(spill.stack_layout.num_spillslots(), slots);
    let set_of = |home: &Option<u32>| ValueSet::new(home.map_or(slots, |s| s as usize));
    let mut coalescing = Coalescing { sets: sheet.homes.iter().map(set_of).collect() };
    for (v, h) in sheet.homes.iter().enumerate() {
        let got = spill.value_spillslot(Value::new(v), &mut coalescing);
        assert_eq!(got.map(|s| s.index() as u32), *h);
    }
    (spill, coalescing)
}

fn build_allocations(sheet: &Sheet, func: &SheetFunc) -> Allocations {
    let mut allocations = Allocations::new();
    allocations.compute_alloc_offsets(func, &mut Stats::default()).unwrap();
    for (at, o) in sheet.ops.iter().enumerate() {
        let inst = Inst::new(o.inst as usize);
        let index = (at - func.first_operand(inst)) as u16;
        allocations.set_allocation(inst, index, alloc_of(o.place));
    }
    allocations.assert_all_assigned();
    allocations
}

fn rust_edit(e: Edit, pool: &mut CompactListPool<Allocation>) -> Option<RustEdit> {
    match e {
        Edit::Move { to, from, value } => {
            let value = Value::new(value as usize);
            Some(RustEdit::Move { to: alloc_of(to), from: alloc_of(from), value })
        }
        Edit::Remat { to, value } => {
            let value = Value::new(value as usize);
            Some(RustEdit::Rematerialize { to: alloc_of(to), value })
        }
        Edit::Irem { to, value, inputs } => {
            let (to, value) = (alloc_of(to), Value::new(value as usize));
            let inputs = CompactList::from_iter(inputs.iter().map(|&p| alloc_of(p)), pool);
            Some(RustEdit::IndirectRematerialize { to, value, inputs })
        }
        Edit::Espill { to: Place::Slot(s), from: Place::Reg(r) } => {
            let (to, from) = (SpillSlot::new(s as usize), PhysReg::new(r as usize));
            Some(RustEdit::EmergencySpill { to, from })
        }
        Edit::Ereload { to: Place::Reg(r), from: Place::Slot(s) } => {
            let (to, from) = (PhysReg::new(r as usize), SpillSlot::new(s as usize));
            Some(RustEdit::EmergencyReload { to, from })
        }
        Edit::None => None,
        _ => unreachable!("refused with 6"),
    }
}

fn build_resolver(sheet: &Sheet, pool: &mut CompactListPool<Allocation>) -> MoveResolver {
    let edits = sheet
        .edits
        .iter()
        .map(|&(inst, e)| (Inst::new(inst as usize), rust_edit(e, pool)))
        .collect();
    let blockparam_allocs = sheet
        .params
        .iter()
        .map(|p| (Block::new(p.block as usize), Value::new(p.value as usize), alloc_of(p.place)))
        .collect();
    MoveResolver { edits, blockparam_allocs }
}

pub fn build(sheet: &Sheet) -> Prepared {
    let func = SheetFunc::new(sheet);
    let (spill, coalescing) = build_spill(sheet);
    let mut allocations = build_allocations(sheet, &func);
    let before = allocations.allocations().to_vec();
    debug_assert!(before.iter().all(|a| !a.is_reserved_value()));
    let resolver = build_resolver(sheet, &mut allocations.remat_inputs);
    Prepared {
        func,
        regs: SheetRegs::new(sheet),
        allocations,
        before,
        resolver,
        spill,
        coalescing,
        stats: Stats::default(),
    }
}

// ---- running the originals -------------------------------------------------------

fn level_of(level: u32) -> MoveOptimizationLevel {
    match level {
        0 => MoveOptimizationLevel::Off,
        1 => MoveOptimizationLevel::Local,
        2 => MoveOptimizationLevel::Forward,
        3 => MoveOptimizationLevel::Global,
        _ => unreachable!("refused with 7"),
    }
}

pub fn optimise(p: &mut Prepared, optimizer: &mut MoveOptimizer, level: u32) {
    optimizer.run(
        &mut p.resolver,
        &p.spill,
        &mut p.coalescing,
        &mut p.allocations,
        &mut p.stats,
        &p.func,
        &p.regs,
        level_of(level),
    );
}

pub fn sweep(p: &mut Prepared, dead: &mut DeadSpillElimination) {
    dead.run(&mut p.resolver, &p.spill, &p.allocations, &mut p.stats, &p.func);
}

// ---- the answer ------------------------------------------------------------------

/// What a run leaves: the altered places, the edits and the counts. The tenth is
/// written with request 2 only; without recipes it is 0.
#[derive(Clone, PartialEq, Eq, Debug)]
pub struct Outcome {
    pub folds: Vec<(u32, u32, Place)>,
    pub edits: Vec<(u32, Edit)>,
    pub counts: [u32; 10],
}

pub fn outcome(p: &Prepared) -> Outcome {
    Outcome {
        folds: folds(p),
        edits: p
            .resolver
            .edits()
            .iter()
            .map(|&(inst, e)| (inst.index() as u32, sheet_edit(e, &p.allocations)))
            .collect(),
        counts: counts(&p.stats),
    }
}

fn folds(p: &Prepared) -> Vec<(u32, u32, Place)> {
    let mut folds = vec![];
    for inst in p.func.insts() {
        let first = p.func.first_operand(inst);
        for (index, &now) in p.allocations.inst_allocations(inst).iter().enumerate() {
            if now != p.before[first + index] {
                folds.push((inst.index() as u32, index as u32, place_of(now)));
            }
        }
    }
    folds
}

fn sheet_edit(e: Option<RustEdit>, allocations: &Allocations) -> Edit {
    let slot = |s: SpillSlot| Place::Slot(s.index() as u32);
    let reg = |r: PhysReg| Place::Reg(r.index() as u32);
    match e {
        None => Edit::None,
        Some(RustEdit::Move { to, from, value }) => {
            Edit::Move { to: place_of(to), from: place_of(from), value: value.index() as u32 }
        }
        Some(RustEdit::Rematerialize { to, value }) => {
            Edit::Remat { to: place_of(to), value: value.index() as u32 }
        }
        Some(RustEdit::EmergencySpill { to, from }) => {
            Edit::Espill { to: slot(to), from: reg(from) }
        }
        Some(RustEdit::EmergencyReload { to, from }) => {
            Edit::Ereload { to: reg(to), from: slot(from) }
        }
        Some(RustEdit::IndirectRematerialize { to, value, inputs }) => {
            let inputs = inputs.as_slice(&allocations.remat_inputs);
            let inputs: Vec<Place> = inputs.iter().map(|&a| place_of(a)).collect();
            let (to, value) = (place_of(to), value.index() as u32);
            Edit::Irem { to, value, inputs: Inputs::new(&inputs) }
        }
    }
}

fn counts(s: &Stats) -> [u32; 10] {
    assert!(requests::recipes() || s.optimized_reload_to_indirect_remat == 0);
    [
        s.blocks_preprocessed_for_optimizer,
        s.optimized_redundant_reload,
        s.optimized_redundant_move,
        s.optimized_redundant_remat,
        s.optimized_redundant_spill,
        s.optimized_reload_to_move,
        s.optimized_stack_use,
        s.eliminated_dead_spill,
        s.eliminated_dead_remat,
        s.optimized_reload_to_indirect_remat,
    ]
    .map(|n| n as u32)
}

/// How many counts the last row of an answer has.
pub fn written_counts() -> usize {
    if requests::recipes() { 10 } else { 9 }
}

pub fn write(o: &Outcome) -> Vec<u8> {
    let mut out = Vec::with_capacity(64 + 20 * o.folds.len() + 28 * o.edits.len());
    for &(inst, idx, place) in &o.folds {
        out.extend_from_slice(b"fold,");
        sheet::put_num(&mut out, inst);
        out.push(b',');
        sheet::put_num(&mut out, idx);
        out.push(b',');
        sheet::put_place(&mut out, place);
        out.extend_from_slice(b"\r\n");
    }
    for &(inst, e) in &o.edits {
        sheet::put_edit(&mut out, inst, e);
    }
    out.extend_from_slice(b"count");
    for &n in &o.counts[..written_counts()] {
        out.push(b',');
        sheet::put_num(&mut out, n);
    }
    out.extend_from_slice(b"\r\n");
    out
}
