//! The distinct kinds of number. Each is handed out by a method of [`Sheet`](crate::Sheet) and comes
//! back in an [`Answer`](crate::Answer); none can stand where another should.

use crate::fields::Field;
use std::fmt;

macro_rules! number {
    ($(#[$doc:meta])* $name:ident) => {
        $(#[$doc])*
        #[derive(Clone, Copy, Debug, PartialEq, Eq, PartialOrd, Ord, Hash)]
        pub struct $name(pub(crate) u32);

        impl $name {
            /// The number, to look a table of the host up with; the first of its kind has 0.
            pub fn index(self) -> usize {
                self.0 as usize
            }
        }

        impl fmt::Display for $name {
            fn fmt(&self, f: &mut fmt::Formatter<'_>) -> fmt::Result {
                self.0.fmt(f)
            }
        }

        impl Field for $name {
            fn read(field: &str) -> Option<Self> {
                u32::read(field).map(Self)
            }
        }
    };
}

number!(
    /// A slot of the stack.
    Slot
);
number!(
    /// A unit: the part of a register that others may share.
    Unit
);
number!(
    /// A register.
    Reg
);
number!(
    /// A class of registers, with the slots or without.
    Class
);
number!(
    /// Registers that hold a group of values, one each.
    Group
);
number!(
    /// A value of the function.
    Value
);
number!(
    /// Values that one operand names together.
    ValueGroup
);
number!(
    /// A block.
    Block
);
number!(
    /// An instruction, counted over all blocks.
    Inst
);
number!(
    /// An edit, counted by the calls of [`Sheet::edit`](crate::Sheet::edit).
    EditNumber
);

/// Where a value is: in a register or in a slot.
#[derive(Clone, Copy, Debug, PartialEq, Eq, Hash)]
pub enum Place {
    /// In a register.
    Reg(Reg),
    /// In a slot.
    Slot(Slot),
}

impl From<Reg> for Place {
    fn from(reg: Reg) -> Self {
        Self::Reg(reg)
    }
}

impl From<Slot> for Place {
    fn from(slot: Slot) -> Self {
        Self::Slot(slot)
    }
}

impl fmt::Display for Place {
    fn fmt(&self, f: &mut fmt::Formatter<'_>) -> fmt::Result {
        match self {
            Self::Reg(reg) => write!(f, "r{reg}"),
            Self::Slot(slot) => write!(f, "s{slot}"),
        }
    }
}

impl Field for Place {
    fn read(field: &str) -> Option<Self> {
        match field.strip_prefix('r') {
            Some(number) => Reg::read(number).map(Self::Reg),
            None => Slot::read(field.strip_prefix('s')?).map(Self::Slot),
        }
    }
}
