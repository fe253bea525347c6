//! An accepted sheet as the originals' traits `Function` and `RegInfo`. Questions
//! that neither pass asks are `unreachable!()`, so that a run shows it.

use crate::entity::EntityRef;
use crate::function::{
    Block, Function, IndirectRemat, Inst, InstRange, Operand, OperandConstraint, OperandKind,
    RematCost, TerminatorKind, Value, ValueGroup,
};
use crate::reginfo::{
    PhysReg, PhysRegSet, RegBank, RegClass, RegClassSet, RegGroup, RegGroupSet, RegInfo, RegUnit,
    SpillSlotSize,
};
use crate::sheet::{Class, Con, OpKind, Recipe, Sheet};

// ---- the sheet as `Function` --------------------------------------------------------

#[derive(Default)]
pub struct SheetFunc {
    insts: usize,
    entries: Vec<Block>,
    ranges: Vec<(u32, u32)>,
    inst_block: Vec<Block>,
    succs: Vec<Vec<Block>>,
    preds: Vec<Vec<Block>>,
    idom: Vec<Option<Block>>,
    operands: Vec<Operand>,
    /// Where each instruction's operands start; one more at the end.
    operand_at: Vec<u32>,
    clobbers: Vec<RegUnit>,
    clobber_at: Vec<u32>,
    values: usize,
    vgroups: Vec<Vec<Value>>,
    /// Per value.
    recipes: Vec<Option<SheetRecipe>>,
}

struct SheetRecipe {
    constraint: OperandConstraint,
    inputs: Vec<Operand>,
    overlap: bool,
}

impl SheetRecipe {
    fn new(r: &Recipe) -> Self {
        let inputs = r.inputs.iter().map(|i| operand(i.kind, i.subject, i.con)).collect();
        Self { constraint: constraint(r.con), inputs, overlap: r.overlap }
    }
}

impl SheetFunc {
    /// A function of so many values and nothing else.
    pub fn of_values(values: usize) -> Self {
        Self { values, ..Self::default() }
    }

    pub fn new(sheet: &Sheet) -> Self {
        let mut f = Self {
            insts: sheet.num_insts(),
            succs: sheet.neighbours(&sheet.succs).iter().map(|l| keys(l)).collect(),
            preds: sheet.neighbours(&sheet.preds).iter().map(|l| keys(l)).collect(),
            values: sheet.homes.len(),
            vgroups: sheet.vgroups.iter().map(|l| keys(l)).collect(),
            recipes: (0..sheet.homes.len() as u32)
                .map(|v| sheet.recipe(v).map(SheetRecipe::new))
                .collect(),
            ..Self::default()
        };
        f.take_blocks(sheet);
        f.take_instructions(sheet);
        f
    }

    fn take_blocks(&mut self, sheet: &Sheet) {
        let mut at = 0;
        for (b, block) in sheet.blocks.iter().enumerate() {
            self.ranges.push((at, at + block.insts));
            at += block.insts;
            self.inst_block.extend((0..block.insts).map(|_| Block::new(b)));
            self.idom.push(block.idom.map(|d| Block::new(d as usize)));
            if block.entry {
                self.entries.push(Block::new(b));
            }
        }
    }

    fn take_instructions(&mut self, sheet: &Sheet) {
        let (mut op, mut clob) = (0, 0);
        for inst in 0..self.insts as u32 {
            self.operand_at.push(self.operands.len() as u32);
            self.clobber_at.push(self.clobbers.len() as u32);
            while op < sheet.ops.len() && sheet.ops[op].inst == inst {
                let o = &sheet.ops[op];
                self.operands.push(operand(o.kind, o.subject, o.con));
                op += 1;
            }
            if clob < sheet.clobs.len() && sheet.clobs[clob].0 == inst {
                self.clobbers.extend(keys::<RegUnit>(&sheet.clobs[clob].1));
                clob += 1;
            }
        }
        self.operand_at.push(self.operands.len() as u32);
        self.clobber_at.push(self.clobbers.len() as u32);
        assert!(op == sheet.ops.len() && clob == sheet.clobs.len());
    }

    /// Where an instruction's operands start in the list of all.
    pub fn first_operand(&self, inst: Inst) -> usize {
        self.operand_at[inst.index()] as usize
    }
}

fn keys<T: EntityRef>(l: &[u32]) -> Vec<T> {
    l.iter().map(|&n| T::new(n as usize)).collect()
}

fn operand(kind: OpKind, subject: u32, con: Con) -> Operand {
    let n = subject as usize;
    let kind = match kind {
        OpKind::Def => OperandKind::Def(Value::new(n)),
        OpKind::Use => OperandKind::Use(Value::new(n)),
        OpKind::Early => OperandKind::EarlyDef(Value::new(n)),
        OpKind::DefG => OperandKind::DefGroup(ValueGroup::new(n)),
        OpKind::UseG => OperandKind::UseGroup(ValueGroup::new(n)),
        OpKind::EarlyG => OperandKind::EarlyDefGroup(ValueGroup::new(n)),
        OpKind::Fixed => OperandKind::NonAllocatable,
    };
    Operand::new(kind, constraint(con))
}

fn constraint(con: Con) -> OperandConstraint {
    match con {
        Con::Class(c) => OperandConstraint::Class(RegClass::new(c as usize)),
        Con::Fixed(r) => OperandConstraint::Fixed(PhysReg::new(r as usize)),
        Con::Reuse(i) => OperandConstraint::Reuse(i as usize),
    }
}

impl Function for SheetFunc {
    fn num_insts(&self) -> usize {
        self.insts
    }
    fn num_blocks(&self) -> usize {
        self.ranges.len()
    }
    fn entry_points(&self) -> &[Block] {
        &self.entries
    }
    fn block_insts(&self, block: Block) -> InstRange {
        let (a, b) = self.ranges[block.index()];
        InstRange::new(Inst::new(a as usize), Inst::new(b as usize))
    }
    fn inst_block(&self, inst: Inst) -> Block {
        self.inst_block[inst.index()]
    }
    fn block_succs(&self, block: Block) -> &[Block] {
        &self.succs[block.index()]
    }
    fn block_preds(&self, block: Block) -> &[Block] {
        &self.preds[block.index()]
    }
    fn block_immediate_dominator(&self, block: Block) -> Option<Block> {
        self.idom[block.index()]
    }
    fn inst_operands(&self, inst: Inst) -> &[Operand] {
        let i = inst.index();
        &self.operands[self.operand_at[i] as usize..self.operand_at[i + 1] as usize]
    }
    fn inst_clobbers(&self, inst: Inst) -> impl Iterator<Item = RegUnit> {
        let i = inst.index();
        self.clobbers[self.clobber_at[i] as usize..self.clobber_at[i + 1] as usize].iter().copied()
    }
    fn num_values(&self) -> usize {
        self.values
    }
    fn num_value_groups(&self) -> usize {
        self.vgroups.len()
    }
    fn value_group_members(&self, group: ValueGroup) -> &[Value] {
        &self.vgroups[group.index()]
    }
    fn can_indirectly_rematerialize(&self, value: Value) -> Option<IndirectRemat<'_>> {
        let r = self.recipes[value.index()].as_ref()?;
        Some(IndirectRemat {
            constraint: r.constraint,
            inputs: &r.inputs,
            allow_destination_overlap: r.overlap,
        })
    }

    // Not asked for by the two modules.
    fn block_params(&self, _block: Block) -> &[Value] {
        unreachable!()
    }
    fn terminator_kind(&self, _inst: Inst) -> Option<TerminatorKind> {
        unreachable!()
    }
    fn jump_blockparams(&self, _block: Block) -> &[Value] {
        unreachable!()
    }
    fn block_frequency(&self, _block: Block) -> f32 {
        unreachable!()
    }
    fn block_is_critical_edge(&self, _block: Block) -> bool {
        unreachable!()
    }
    fn value_bank(&self, _value: Value) -> RegBank {
        unreachable!()
    }
    fn can_rematerialize(&self, _value: Value) -> Option<(RematCost, RegClass)> {
        unreachable!()
    }
    fn can_eliminate_dead_inst(&self, _inst: Inst) -> bool {
        unreachable!()
    }
}

// ---- the sheet as `RegInfo` -----------------------------------------------------------

pub struct SheetRegs {
    units: Vec<Vec<RegUnit>>,
    memory: Vec<bool>,
    members: Vec<PhysRegSet>,
    class_slots: Vec<bool>,
    group_class: Vec<RegClass>,
    group_regs: Vec<Vec<PhysReg>>,
}

impl SheetRegs {
    pub fn new(sheet: &Sheet) -> Self {
        let members = |c: &Class| keys::<PhysReg>(&c.regs).into_iter().collect();
        Self {
            units: sheet.regs.iter().map(|r| keys(&r.units)).collect(),
            memory: sheet.regs.iter().map(|r| r.memory).collect(),
            members: sheet.classes.iter().map(members).collect(),
            class_slots: sheet.classes.iter().map(|c| c.slots).collect(),
            group_class: sheet.groups.iter().map(|g| RegClass::new(g.class as usize)).collect(),
            group_regs: sheet.groups.iter().map(|g| keys(&g.regs)).collect(),
        }
    }
}

impl RegInfo for SheetRegs {
    fn num_classes(&self) -> usize {
        self.members.len()
    }
    fn class_members(&self, class: RegClass) -> PhysRegSet {
        self.members[class.index()]
    }
    fn class_includes_spillslots(&self, class: RegClass) -> bool {
        self.class_slots[class.index()]
    }
    fn num_regs(&self) -> usize {
        self.units.len()
    }
    fn reg_units(&self, reg: PhysReg) -> impl Iterator<Item = RegUnit> {
        self.units[reg.index()].iter().copied()
    }
    fn is_memory(&self, reg: PhysReg) -> bool {
        self.memory[reg.index()]
    }
    fn num_reg_groups(&self) -> usize {
        self.group_regs.len()
    }
    fn reg_group_members(&self, group: RegGroup) -> &[PhysReg] {
        &self.group_regs[group.index()]
    }
    fn group_for_reg(&self, reg: PhysReg, group_index: usize, class: RegClass) -> Option<RegGroup> {
        (0..self.group_regs.len())
            .find(|&g| {
                self.group_class[g] == class && self.group_regs[g].get(group_index) == Some(&reg)
            })
            .map(RegGroup::new)
    }

    // Not asked for by the two modules.
    fn num_banks(&self) -> usize {
        unreachable!()
    }
    fn top_level_class(&self, _bank: RegBank) -> RegClass {
        unreachable!()
    }
    fn stack_to_stack_class(&self, _bank: RegBank) -> RegClass {
        unreachable!()
    }
    fn bank_for_class(&self, _class: RegClass) -> RegBank {
        unreachable!()
    }
    fn bank_for_reg(&self, _reg: PhysReg) -> Option<RegBank> {
        unreachable!()
    }
    fn spillslot_size(&self, _bank: RegBank) -> SpillSlotSize {
        unreachable!()
    }
    fn class_group_members(&self, _class: RegClass) -> RegGroupSet {
        unreachable!()
    }
    fn class_spill_cost(&self, _class: RegClass) -> f32 {
        unreachable!()
    }
    fn allocation_order(&self, _class: RegClass) -> &[PhysReg] {
        unreachable!()
    }
    fn group_allocation_order(&self, _class: RegClass) -> &[RegGroup] {
        unreachable!()
    }
    fn sub_classes(&self, _class: RegClass) -> RegClassSet {
        unreachable!()
    }
    fn class_group_size(&self, _class: RegClass) -> usize {
        unreachable!()
    }
}
