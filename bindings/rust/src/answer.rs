//! What the call answers, read by types: the folds, what became of each edit, and the counts.

use crate::fields::{list, rows, Field};
use crate::nouns::Edit;
use crate::numbers::{EditNumber, Inst, Place, Reg};
use crate::sheet::Sheet;
use std::fmt;

/// The answer to a sheet.
#[derive(Clone, Debug, PartialEq, Eq)]
pub struct Answer {
    /// The operands that are at another place now, by instruction and operand.
    pub folds: Vec<Fold>,
    /// Every edit of the sheet, in the order in which they stand before the instructions.
    pub edits: Vec<Edited>,
    /// How often each rule fired.
    pub counts: Counts,
}

/// A use that is read from a register instead of from memory.
#[derive(Clone, Copy, Debug, PartialEq, Eq, Hash)]
pub struct Fold {
    /// The instruction.
    pub inst: Inst,
    /// Which of its operands, the first being 0.
    pub operand: usize,
    /// The register that holds the value.
    pub reg: Reg,
}

/// An edit of the sheet, and what became of it.
#[derive(Clone, Copy, Debug, PartialEq, Eq, Hash)]
pub struct Edited {
    /// Which edit of the sheet.
    pub number: EditNumber,
    /// The instruction that it stands before.
    pub inst: Inst,
    /// The edit as the sheet has it.
    pub before: Edit,
    /// What became of it.
    pub outcome: Outcome,
}

/// What became of an edit.
#[derive(Clone, Copy, Debug, PartialEq, Eq, Hash)]
pub enum Outcome {
    /// It stays as it is.
    Kept,
    /// It stays, and moves the value from this register instead of from memory.
    Changed(Reg),
    /// It goes.
    Removed,
}

impl Edited {
    fn of(number: EditNumber, inst: Inst, before: Edit, after: Edit) -> Option<Self> {
        let outcome = match (before, after) {
            _ if before == after => Outcome::Kept,
            (_, Edit::None) => Outcome::Removed,
            (Edit::Move { .. }, Edit::Move { from: Place::Reg(reg), .. }) => Outcome::Changed(reg),
            _ => return None,
        };
        Some(Self { number, inst, before, outcome })
    }

    /// The edit as it is now; [`Edit::None`] where it was removed.
    pub fn after(&self) -> Edit {
        match (self.outcome, self.before) {
            (Outcome::Changed(reg), Edit::Move { to, value, .. }) => Edit::move_to(to, reg, value),
            (Outcome::Removed, _) => Edit::None,
            (_, before) => before,
        }
    }
}

/// How often each rule fired, by the names of the Rust's statistics.
#[derive(Clone, Copy, Debug, Default, PartialEq, Eq, Hash)]
pub struct Counts {
    /// Visits of the preparing walk of [`Level::Global`](crate::Level::Global).
    pub blocks_preprocessed_for_optimizer: u32,
    /// Moves from memory removed, whose register held the value.
    pub optimized_redundant_reload: u32,
    /// Other moves removed, whose register held the value.
    pub optimized_redundant_move: u32,
    /// Rematerialisations removed, whose register held the value.
    pub optimized_redundant_remat: u32,
    /// Edits removed, whose slot held the value.
    pub optimized_redundant_spill: u32,
    /// Moves that take the value from a register instead of from memory.
    pub optimized_reload_to_move: u32,
    /// Folds.
    pub optimized_stack_use: u32,
    /// Moves into a slot that nobody reads, removed by the sweep.
    pub eliminated_dead_spill: u32,
    /// Rematerialisations into a slot that nobody reads, removed by the sweep.
    pub eliminated_dead_remat: u32,
}

impl Counts {
    fn of(counts: [u32; 9]) -> Self {
        Self {
            blocks_preprocessed_for_optimizer: counts[0],
            optimized_redundant_reload: counts[1],
            optimized_redundant_move: counts[2],
            optimized_redundant_remat: counts[3],
            optimized_redundant_spill: counts[4],
            optimized_reload_to_move: counts[5],
            optimized_stack_use: counts[6],
            eliminated_dead_spill: counts[7],
            eliminated_dead_remat: counts[8],
        }
    }

    /// The nine by name, in the order of the `count` row.
    pub fn named(&self) -> [(&'static str, u32); 9] {
        [
            ("blocks_preprocessed_for_optimizer", self.blocks_preprocessed_for_optimizer),
            ("optimized_redundant_reload", self.optimized_redundant_reload),
            ("optimized_redundant_move", self.optimized_redundant_move),
            ("optimized_redundant_remat", self.optimized_redundant_remat),
            ("optimized_redundant_spill", self.optimized_redundant_spill),
            ("optimized_reload_to_move", self.optimized_reload_to_move),
            ("optimized_stack_use", self.optimized_stack_use),
            ("eliminated_dead_spill", self.eliminated_dead_spill),
            ("eliminated_dead_remat", self.eliminated_dead_remat),
        ]
    }
}

/// One thing that the host has to change.
#[derive(Clone, Copy, Debug, PartialEq, Eq, Hash)]
pub enum Change {
    /// The operand is read from the register.
    Fold {
        /// The instruction.
        inst: Inst,
        /// Which of its operands, the first being 0.
        operand: usize,
        /// The register.
        reg: Reg,
    },
    /// The move takes its value from the register.
    Source {
        /// Which edit of the sheet.
        edit: EditNumber,
        /// The register.
        reg: Reg,
    },
    /// The edit goes.
    Removed {
        /// Which edit of the sheet.
        edit: EditNumber,
    },
}

impl Answer {
    /// The answer to a sheet that is written as these bytes; `None` where none is.
    pub fn read(sheet: &Sheet, bytes: &[u8]) -> Option<Self> {
        let mut answer = Self { folds: vec![], edits: vec![], counts: Counts::default() };
        let mut edits = sheet.edits.iter().flat_map(|(inst, edits)| edits.iter().map(|edit| (*inst, *edit)));
        for row in rows(bytes)? {
            match row[..] {
                ["fold", inst, operand, place] => answer.folds.push(Fold::read(inst, operand, place)?),
                ["edit", _, kind, to, from, value] => {
                    let (inst, (number, before)) = edits.next()?;
                    let after = Edit::read(kind, to, from, value)?;
                    answer.edits.push(Edited::of(number, inst, before, after)?);
                }
                ["count", ref counts @ ..] => answer.counts = Counts::of(list(counts)?.try_into().ok()?),
                _ => return None,
            }
        }
        (edits.next().is_none() && answer.to_bytes() == bytes).then_some(answer)
    }

    /// The answer's rows, as the call wrote them.
    pub fn to_bytes(&self) -> Vec<u8> {
        self.to_string().into_bytes()
    }

    /// What the host has to change, each thing once; the order does not matter.
    ///
    /// ```
    /// use drifthurdle::{clean_sheet, Change, Edit, Level, OpKind, Sheet};
    ///
    /// let mut sheet = Sheet::new();
    /// let (slot, unit) = (sheet.slot(), sheet.unit());
    /// let reg = sheet.reg(&[unit]);
    /// let class = sheet.class_with_slots(&[reg]);
    /// let value = sheet.value(slot);
    /// let block = sheet.entry(3);
    /// let insts: Vec<_> = sheet.insts(block).collect();
    /// sheet.op(insts[0], OpKind::Def(value), class, reg);
    /// let used = sheet.op(insts[1], OpKind::Use(value), class, slot);
    /// let save = sheet.edit(insts[1], Edit::move_to(slot, reg, value));
    ///
    /// let answer = clean_sheet(&sheet, Level::Local, true)?;
    /// let changes: Vec<_> = answer.changes().collect();
    /// assert_eq!(changes, [Change::Fold { inst: insts[1], operand: used, reg }, Change::Removed { edit: save }]);
    /// assert_eq!(answer.counts.eliminated_dead_spill, 1);
    /// # Ok::<(), drifthurdle::Refusal>(())
    /// ```
    pub fn changes(&self) -> impl Iterator<Item = Change> + '_ {
        let folds = self.folds.iter().map(|&Fold { inst, operand, reg }| Change::Fold { inst, operand, reg });
        let edits = self.edits.iter().filter_map(|edited| match edited.outcome {
            Outcome::Kept => None,
            Outcome::Changed(reg) => Some(Change::Source { edit: edited.number, reg }),
            Outcome::Removed => Some(Change::Removed { edit: edited.number }),
        });
        folds.chain(edits)
    }
}

impl Fold {
    fn read(inst: &str, operand: &str, place: &str) -> Option<Self> {
        match Place::read(place)? {
            Place::Reg(reg) => Some(Self { inst: Inst::read(inst)?, operand: usize::read(operand)?, reg }),
            Place::Slot(_) => None,
        }
    }
}

/// The rows, each with its CR LF.
impl fmt::Display for Answer {
    fn fmt(&self, f: &mut fmt::Formatter<'_>) -> fmt::Result {
        for Fold { inst, operand, reg } in &self.folds {
            write!(f, "fold,{inst},{operand},r{reg}\r\n")?;
        }
        for edited in &self.edits {
            write!(f, "edit,{},{}\r\n", edited.inst, edited.after())?;
        }
        f.write_str("count")?;
        self.counts.named().iter().try_for_each(|(_, count)| write!(f, ",{count}"))?;
        f.write_str("\r\n")
    }
}
