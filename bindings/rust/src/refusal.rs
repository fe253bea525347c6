//! Why a sheet is refused.

use crate::numbers::Block;
use crate::sheet::Sheet;
use std::fmt;

/// Why a sheet was refused. Nothing was written then.
///
/// A rule of one block has the `block` row of the lowest block that breaks it, the sheet's first row being 1.
#[derive(Clone, Copy, Debug, PartialEq, Eq, Hash)]
pub enum Refusal {
    /// 1: the sheet is over 65,536 bytes, or its rows are broken.
    Rows,
    /// 2: a limit is passed.
    Limits,
    /// 3: a row names something absent, or one thing twice in a list.
    Names,
    /// 4: no block is an entry.
    NoEntry,
    /// 4: a block has no instructions.
    Empty(u32),
    /// 9: a block names a neighbour that does not name it back.
    Disagree(u32),
    /// 10: an entry has a predecessor, or a block has several successors one of which has several predecessors.
    Edges(u32),
    /// 11: a sole predecessor or an idom is not smaller than its block.
    NotSmaller(u32),
    /// 12: no entry reaches the block.
    NotReached(u32),
    /// 5: the operand rules are broken.
    Operands,
    /// 6: the edit rules are broken.
    Edits,
    /// 7: the level or the sweep flag is none; [`clean`](crate::clean) never gives it.
    Call,
    /// 8: the output buffer is shorter than the answer.
    Room,
    /// 0: the linked archive is another one: what it returned or wrote is no answer. The proved one never does so.
    Archive,
}

impl Refusal {
    /// `sum` is 100 times the row plus the number.
    pub(crate) fn of(sum: i64) -> Self {
        let Ok(row) = u32::try_from(sum / 100) else { return Self::Archive };
        match (sum % 100, row) {
            (1, 0) => Self::Rows,
            (2, 0) => Self::Limits,
            (3, 0) => Self::Names,
            (4, 0) => Self::NoEntry,
            (4, _) => Self::Empty(row),
            (5, 0) => Self::Operands,
            (6, 0) => Self::Edits,
            (7, 0) => Self::Call,
            (8, 0) => Self::Room,
            (9, _) => Self::Disagree(row),
            (10, _) => Self::Edges(row),
            (11, _) => Self::NotSmaller(row),
            (12, _) => Self::NotReached(row),
            _ => Self::Archive,
        }
    }

    /// The number, the row and the words of each.
    fn told(self) -> (u32, Option<u32>, &'static str) {
        match self {
            Self::Rows => (1, None, "sheet too long, or broken rows"),
            Self::Limits => (2, None, "a limit is passed"),
            Self::Names => (3, None, "a row names something absent, or one thing twice in a list"),
            Self::NoEntry => (4, None, "no entry"),
            Self::Empty(row) => (4, Some(row), "empty block"),
            Self::Disagree(row) => (9, Some(row), "a neighbour does not name the block back"),
            Self::Edges(row) => {
                (10, Some(row), "entry with predecessor, or several successors meeting several predecessors")
            }
            Self::NotSmaller(row) => (11, Some(row), "sole predecessor or idom not smaller than its block"),
            Self::NotReached(row) => (12, Some(row), "no entry reaches the block"),
            Self::Operands => (5, None, "operand rules broken"),
            Self::Edits => (6, None, "edit rules broken"),
            Self::Call => (7, None, "no such level or sweep flag"),
            Self::Room => (8, None, "output buffer shorter than the answer"),
            Self::Archive => (0, None, "the linked archive is another one"),
        }
    }

    /// The number in the scope's table, 1 to 12; 0 for [`Refusal::Archive`].
    pub fn number(self) -> u32 {
        self.told().0
    }

    /// The `block` row of the lowest block concerned, counted from 1 over all rows of the sheet; none where no block is.
    pub fn row(self) -> Option<u32> {
        self.told().1
    }

    /// The lowest block concerned, of the sheet that was refused; none where no block is.
    ///
    /// ```
    /// let mut sheet = drifthurdle::Sheet::new();
    /// let (start, lost) = (sheet.entry(1), sheet.block(1));
    /// let refusal = drifthurdle::clean_sheet(&sheet, drifthurdle::Level::Forward, true).unwrap_err();
    /// assert_eq!(refusal.block(&sheet), Some(lost));
    /// assert_eq!(refusal.to_string(), "refusal 12 at row 3: no entry reaches the block");
    /// ```
    pub fn block(self, sheet: &Sheet) -> Option<Block> {
        self.row().and_then(|row| sheet.block_at(row))
    }
}

impl fmt::Display for Refusal {
    fn fmt(&self, f: &mut fmt::Formatter<'_>) -> fmt::Result {
        match self.told() {
            (number, Some(row), what) => write!(f, "refusal {number} at row {row}: {what}"),
            (number, None, what) => write!(f, "refusal {number}: {what}"),
        }
    }
}

impl std::error::Error for Refusal {}
