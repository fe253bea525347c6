//! A function after register allocation, built by types.

use crate::nouns::{Constraint, Edit, OpKind};
use crate::numbers::{Block, Class, EditNumber, Group, Inst, Place, Reg, Slot, Unit, Value, ValueGroup};
use std::collections::BTreeMap;

/// A function after register allocation.
///
/// Its methods add the machine (slots, units, registers, classes, groups), the values, the blocks with their
/// edges, and what stands in them: parameters, operands, clobbers, edits. They may be called in any order; the
/// rows come out in theirs. Operands of one instruction and edits before one keep the order of their calls.
///
/// Every call is fine and none panics. What is wrong with a sheet,
/// [`clean_sheet`](crate::clean_sheet) tells.
///
/// ```
/// use drifthurdle::{Edit, OpKind, Sheet};
///
/// let mut sheet = Sheet::new();
/// let (slot, unit) = (sheet.slot(), sheet.unit());
/// let reg = sheet.reg(&[unit]);
/// let class = sheet.class_with_slots(&[reg]);
/// let value = sheet.value(slot);
/// let block = sheet.entry(3);
/// let insts: Vec<_> = sheet.insts(block).collect();
/// sheet.edit(insts[1], Edit::move_to(slot, reg, value));
/// sheet.op(insts[1], OpKind::Use(value), class, slot);
/// sheet.op(insts[0], OpKind::Def(value), class, reg);
/// assert_eq!(
///     sheet.to_string(),
///     "slots,1\r\nreg,0,0,0\r\nclass,0,1,0\r\nvalue,0,0\r\nblock,0,3,-,1\r\n\
///      op,0,def,0,c0,r0\r\nop,1,use,0,c0,s0\r\nedit,1,move,s0,r0,0\r\n"
/// );
/// ```
///
/// A number of one kind does not stand where another should:
///
/// ```compile_fail,E0308
/// let mut sheet = drifthurdle::Sheet::new();
/// let slot = sheet.slot();
/// sheet.reg(&[slot]);
/// ```
#[derive(Clone, Debug, Default, PartialEq, Eq)]
pub struct Sheet {
    pub(crate) slots: u32,
    pub(crate) units: u32,
    pub(crate) regs: Vec<RegRow>,
    pub(crate) classes: Vec<ClassRow>,
    pub(crate) groups: Vec<(Class, Vec<Reg>)>,
    pub(crate) values: Vec<Option<Slot>>,
    pub(crate) value_groups: Vec<Vec<Value>>,
    pub(crate) blocks: Vec<BlockRow>,
    pub(crate) succs: BTreeMap<Block, Vec<Block>>,
    pub(crate) preds: BTreeMap<Block, Vec<Block>>,
    pub(crate) params: BTreeMap<Block, Vec<(Value, Place)>>,
    pub(crate) ops: BTreeMap<Inst, Vec<Op>>,
    pub(crate) clobs: BTreeMap<Inst, Vec<Unit>>,
    pub(crate) edits: BTreeMap<Inst, Vec<(EditNumber, Edit)>>,
    pub(crate) edit_count: u32,
}

#[derive(Clone, Debug, PartialEq, Eq)]
pub(crate) struct RegRow {
    pub memory: bool,
    pub units: Vec<Unit>,
}

#[derive(Clone, Debug, PartialEq, Eq)]
pub(crate) struct ClassRow {
    pub slots: bool,
    pub regs: Vec<Reg>,
}

#[derive(Clone, Debug, PartialEq, Eq)]
pub(crate) struct BlockRow {
    pub first: u32,
    pub insts: u32,
    pub idom: Option<Block>,
    pub entry: bool,
}

#[derive(Clone, Copy, Debug, PartialEq, Eq)]
pub(crate) struct Op {
    pub kind: OpKind,
    pub constraint: Constraint,
    pub place: Place,
}

/// Adds a row, and hands out its number.
fn next<T>(rows: &mut Vec<T>, row: T) -> u32 {
    let number = u32::try_from(rows.len()).unwrap_or(u32::MAX);
    rows.push(row);
    number
}

/// Adds a member that is not in the list yet.
fn join<T: PartialEq>(list: &mut Vec<T>, member: T) {
    if !list.contains(&member) {
        list.push(member);
    }
}

/// The machine.
impl Sheet {
    /// A sheet with nothing in it.
    pub fn new() -> Self {
        Self::default()
    }

    /// A slot of the stack.
    pub fn slot(&mut self) -> Slot {
        let slot = Slot(self.slots);
        self.slots = self.slots.saturating_add(1);
        slot
    }

    /// A unit. Registers that share one overlap; a clobber takes units.
    pub fn unit(&mut self) -> Unit {
        let unit = Unit(self.units);
        self.units = self.units.saturating_add(1);
        unit
    }

    /// A register of these units, at least one.
    pub fn reg(&mut self, units: &[Unit]) -> Reg {
        Reg(next(&mut self.regs, RegRow { memory: false, units: units.to_vec() }))
    }

    /// A register that lies in memory: reading it costs as much as reading a slot.
    pub fn memory_reg(&mut self, units: &[Unit]) -> Reg {
        Reg(next(&mut self.regs, RegRow { memory: true, units: units.to_vec() }))
    }

    /// A class of these registers, which may be none. One whose operands are groups lists the first register
    /// of each group.
    pub fn class(&mut self, regs: &[Reg]) -> Class {
        Class(next(&mut self.classes, ClassRow { slots: false, regs: regs.to_vec() }))
    }

    /// A class of these registers and of every slot.
    pub fn class_with_slots(&mut self, regs: &[Reg]) -> Class {
        Class(next(&mut self.classes, ClassRow { slots: true, regs: regs.to_vec() }))
    }

    /// Registers, at least one, that hold a group of values, for operands of this class.
    pub fn group(&mut self, class: Class, regs: &[Reg]) -> Group {
        Group(next(&mut self.groups, (class, regs.to_vec())))
    }
}

/// The values and the blocks.
impl Sheet {
    /// A value with its home, the slot that it is spilled to, or `None`.
    pub fn value(&mut self, home: impl Into<Option<Slot>>) -> Value {
        Value(next(&mut self.values, home.into()))
    }

    /// Values, at least one, that one operand names together.
    pub fn value_group(&mut self, values: &[Value]) -> ValueGroup {
        ValueGroup(next(&mut self.value_groups, values.to_vec()))
    }

    /// A block of so many instructions. Blocks are numbered by the calls of `block` and [`entry`](Self::entry),
    /// their instructions in turn.
    pub fn block(&mut self, insts: u32) -> Block {
        self.push_block(insts, false)
    }

    /// A block of so many instructions at which the function is entered.
    pub fn entry(&mut self, insts: u32) -> Block {
        self.push_block(insts, true)
    }

    pub(crate) fn push_block(&mut self, insts: u32, entry: bool) -> Block {
        let first = self.blocks.last().map_or(0, |last| last.first.saturating_add(last.insts));
        Block(next(&mut self.blocks, BlockRow { first, insts, idom: None, entry }))
    }

    /// The instructions of a block.
    pub fn insts(&self, block: Block) -> impl DoubleEndedIterator<Item = Inst> {
        let range =
            self.blocks.get(block.index()).map_or(0..0, |row| row.first..row.first.saturating_add(row.insts));
        range.map(Inst)
    }

    /// Says which block immediately dominates a block; a block has none until then.
    pub fn set_idom(&mut self, block: Block, idom: Block) {
        if let Some(row) = self.blocks.get_mut(block.index()) {
            row.idom = Some(idom);
        }
    }

    /// An edge from one block to another. The same edge again adds nothing.
    pub fn edge(&mut self, from: Block, to: Block) {
        join(self.succs.entry(from).or_default(), to);
        join(self.preds.entry(to).or_default(), from);
    }
}

/// What stands in the blocks.
impl Sheet {
    /// A parameter: as the block begins, the value is at the place.
    pub fn param(&mut self, block: Block, value: Value, place: impl Into<Place>) {
        self.params.entry(block).or_default().push((value, place.into()));
    }

    /// An operand of an instruction, at the place that it was given. Returns which one it is, the first being 0.
    pub fn op(
        &mut self,
        inst: Inst,
        kind: OpKind,
        constraint: impl Into<Constraint>,
        place: impl Into<Place>,
    ) -> usize {
        let ops = self.ops.entry(inst).or_default();
        ops.push(Op { kind, constraint: constraint.into(), place: place.into() });
        ops.len() - 1
    }

    /// Units whose content the instruction spoils. The same unit again adds nothing.
    pub fn clobber(&mut self, inst: Inst, units: &[Unit]) {
        for unit in units {
            join(self.clobs.entry(inst).or_default(), *unit);
        }
    }

    /// An edit before an instruction, after those that stand there.
    pub fn edit(&mut self, inst: Inst, edit: Edit) -> EditNumber {
        let number = EditNumber(self.edit_count);
        self.edit_count = self.edit_count.saturating_add(1);
        self.edits.entry(inst).or_default().push((number, edit));
        number
    }
}
