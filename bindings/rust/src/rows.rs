//! A sheet as its rows: written, and read back.

use crate::fields::{list, rows, Field, List, OrDash};
use crate::nouns::{Constraint, Edit, OpKind};
use crate::numbers::{Block, Class, Inst, Place, Reg, Slot, Unit, Value};
use crate::sheet::{ClassRow, RegRow, Sheet};
use std::fmt;

impl Sheet {
    /// The sheet's rows, as the call takes them.
    pub fn to_bytes(&self) -> Vec<u8> {
        self.to_string().into_bytes()
    }

    /// The sheet that is written as these bytes.
    ///
    /// `None` where none is: rows are broken, edits fall, or an emergency edit is not between a register and a
    /// slot. The call refuses all of those, so every sheet that it accepts can be read.
    pub fn parse(bytes: &[u8]) -> Option<Self> {
        let mut sheet = Self::new();
        for row in rows(bytes)? {
            let (kind, fields) = row.split_first()?;
            sheet.read_row(kind, fields)?;
        }
        let units = sheet.regs.iter().flat_map(|reg| &reg.units).chain(sheet.clobs.values().flatten());
        sheet.units = units.map(|unit| unit.0.saturating_add(1)).max().unwrap_or(0);
        (sheet.to_bytes() == bytes).then_some(sheet)
    }

    /// The block that has this row, the sheet's first row being 1.
    pub(crate) fn block_at(&self, row: u32) -> Option<Block> {
        let tables = [self.regs.len(), self.classes.len(), self.groups.len(), self.values.len()];
        let above = 1 + tables.iter().sum::<usize>() + self.value_groups.len();
        let block = (row as usize).checked_sub(above + 1).filter(|block| *block < self.blocks.len())?;
        u32::try_from(block).ok().map(Block)
    }

    fn read_row(&mut self, kind: &str, fields: &[&str]) -> Option<()> {
        match kind {
            "slots" | "reg" | "class" | "group" => self.read_machine(kind, fields),
            "value" | "vgroup" | "block" | "succ" | "pred" => self.read_block(kind, fields),
            _ => self.read_content(kind, fields),
        }
    }

    fn read_machine(&mut self, kind: &str, fields: &[&str]) -> Option<()> {
        match (kind, fields) {
            ("slots", [count]) => self.slots = u32::read(count)?,
            ("reg", [_, memory, units @ ..]) => {
                self.regs.push(RegRow { memory: bool::read(memory)?, units: list(units)? });
            }
            ("class", [_, slots, regs @ ..]) => {
                self.classes.push(ClassRow { slots: bool::read(slots)?, regs: list(regs)? });
            }
            ("group", [_, class, regs @ ..]) => self.groups.push((Class::read(class)?, list(regs)?)),
            _ => return None,
        }
        Some(())
    }

    fn read_block(&mut self, kind: &str, fields: &[&str]) -> Option<()> {
        match (kind, fields) {
            ("value", [_, home]) => self.values.push(<Option<Slot>>::read(home)?),
            ("vgroup", [_, values @ ..]) => self.value_groups.push(list(values)?),
            ("block", [_, insts, idom, entry]) => {
                self.push_block(u32::read(insts)?, bool::read(entry)?);
                self.blocks.last_mut()?.idom = <Option<Block>>::read(idom)?;
            }
            ("succ", [block, to @ ..]) => {
                self.succs.entry(Block::read(block)?).or_default().extend(list::<Block>(to)?)
            }
            ("pred", [block, from @ ..]) => {
                self.preds.entry(Block::read(block)?).or_default().extend(list::<Block>(from)?);
            }
            _ => return None,
        }
        Some(())
    }

    fn read_content(&mut self, kind: &str, fields: &[&str]) -> Option<()> {
        match (kind, fields) {
            ("param", [block, value, place]) => {
                self.param(Block::read(block)?, Value::read(value)?, Place::read(place)?);
            }
            ("op", [inst, kind, subject, constraint, place]) => {
                let (kind, constraint) = (OpKind::read(kind, subject)?, Constraint::read(constraint)?);
                self.op(Inst::read(inst)?, kind, constraint, Place::read(place)?);
            }
            ("clob", [inst, units @ ..]) => {
                self.clobs.entry(Inst::read(inst)?).or_default().extend(list::<Unit>(units)?);
            }
            ("edit", [inst, kind, to, from, value]) => {
                self.edit(Inst::read(inst)?, Edit::read(kind, to, from, value)?);
            }
            _ => return None,
        }
        Some(())
    }
}

/// The rows, each with its CR LF.
impl fmt::Display for Sheet {
    fn fmt(&self, f: &mut fmt::Formatter<'_>) -> fmt::Result {
        self.write_machine(f)?;
        self.write_blocks(f)?;
        self.write_contents(f)
    }
}

impl Sheet {
    fn write_machine(&self, f: &mut fmt::Formatter<'_>) -> fmt::Result {
        write!(f, "slots,{}\r\n", self.slots)?;
        for (reg, row) in self.regs.iter().enumerate() {
            write!(f, "reg,{reg},{}{}\r\n", u8::from(row.memory), List(&row.units))?;
        }
        for (class, row) in self.classes.iter().enumerate() {
            write!(f, "class,{class},{}{}\r\n", u8::from(row.slots), List(&row.regs))?;
        }
        for (group, (class, regs)) in self.groups.iter().enumerate() {
            write!(f, "group,{group},{class}{}\r\n", List::<Reg>(regs))?;
        }
        Ok(())
    }

    fn write_blocks(&self, f: &mut fmt::Formatter<'_>) -> fmt::Result {
        for (value, home) in self.values.iter().enumerate() {
            write!(f, "value,{value},{}\r\n", OrDash(*home))?;
        }
        for (group, values) in self.value_groups.iter().enumerate() {
            write!(f, "vgroup,{group}{}\r\n", List(values))?;
        }
        for (block, row) in self.blocks.iter().enumerate() {
            write!(f, "block,{block},{},{},{}\r\n", row.insts, OrDash(row.idom), u8::from(row.entry))?;
        }
        for (block, to) in &self.succs {
            write!(f, "succ,{block}{}\r\n", List(to))?;
        }
        for (block, from) in &self.preds {
            write!(f, "pred,{block}{}\r\n", List(from))?;
        }
        Ok(())
    }

    fn write_contents(&self, f: &mut fmt::Formatter<'_>) -> fmt::Result {
        for (block, params) in &self.params {
            for (value, place) in params {
                write!(f, "param,{block},{value},{place}\r\n")?;
            }
        }
        for (inst, ops) in &self.ops {
            for op in ops {
                write!(f, "op,{inst},{},{},{}\r\n", op.kind, op.constraint, op.place)?;
            }
        }
        for (inst, units) in &self.clobs {
            write!(f, "clob,{inst}{}\r\n", List(units))?;
        }
        for (inst, edits) in &self.edits {
            for (_, edit) in edits {
                write!(f, "edit,{inst},{edit}\r\n")?;
            }
        }
        Ok(())
    }
}
