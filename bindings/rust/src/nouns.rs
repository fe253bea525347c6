//! What an operand and an edit are made of, and how they stand in a row.

use crate::fields::Field;
use crate::numbers::{Class, Place, Reg, Slot, Value, ValueGroup};
use std::fmt;

/// What an instruction does with an operand.
#[derive(Clone, Copy, Debug, PartialEq, Eq, Hash)]
pub enum OpKind {
    /// Defines the value after the instruction has read its uses.
    Def(Value),
    /// Reads the value.
    Use(Value),
    /// Defines the value before the instruction has read its uses.
    Early(Value),
    /// Defines a group of values, as [`OpKind::Def`].
    DefGroup(ValueGroup),
    /// Reads a group of values.
    UseGroup(ValueGroup),
    /// Defines a group of values, as [`OpKind::Early`].
    EarlyGroup(ValueGroup),
    /// Names a register that the allocator does not give out.
    Fixed,
}

impl OpKind {
    pub(crate) fn read(kind: &str, subject: &str) -> Option<Self> {
        Some(match kind {
            "def" => Self::Def(Value::read(subject)?),
            "use" => Self::Use(Value::read(subject)?),
            "early" => Self::Early(Value::read(subject)?),
            "defg" => Self::DefGroup(ValueGroup::read(subject)?),
            "useg" => Self::UseGroup(ValueGroup::read(subject)?),
            "earlyg" => Self::EarlyGroup(ValueGroup::read(subject)?),
            "fixed" => Self::Fixed,
            _ => return None,
        })
    }
}

/// The fields `kind,subject`.
impl fmt::Display for OpKind {
    fn fmt(&self, f: &mut fmt::Formatter<'_>) -> fmt::Result {
        match self {
            Self::Def(value) => write!(f, "def,{value}"),
            Self::Use(value) => write!(f, "use,{value}"),
            Self::Early(value) => write!(f, "early,{value}"),
            Self::DefGroup(group) => write!(f, "defg,{group}"),
            Self::UseGroup(group) => write!(f, "useg,{group}"),
            Self::EarlyGroup(group) => write!(f, "earlyg,{group}"),
            Self::Fixed => f.write_str("fixed,-"),
        }
    }
}

/// Where an operand may be.
#[derive(Clone, Copy, Debug, PartialEq, Eq, Hash)]
pub enum Constraint {
    /// In a register of the class, or in a slot if the class has them.
    Class(Class),
    /// In this register.
    Fixed(Reg),
    /// Where this operand of the same instruction is, the first being 0.
    Reuse(usize),
}

impl From<Class> for Constraint {
    fn from(class: Class) -> Self {
        Self::Class(class)
    }
}

/// One field, such as `c0`, `f3` or `u1`.
impl fmt::Display for Constraint {
    fn fmt(&self, f: &mut fmt::Formatter<'_>) -> fmt::Result {
        match self {
            Self::Class(class) => write!(f, "c{class}"),
            Self::Fixed(reg) => write!(f, "f{reg}"),
            Self::Reuse(operand) => write!(f, "u{operand}"),
        }
    }
}

impl Field for Constraint {
    fn read(field: &str) -> Option<Self> {
        match (field.get(..1)?, field.get(1..)?) {
            ("c", class) => Class::read(class).map(Self::Class),
            ("f", reg) => Reg::read(reg).map(Self::Fixed),
            ("u", operand) => usize::read(operand).map(Self::Reuse),
            _ => None,
        }
    }
}

/// What the allocator put before an instruction.
#[derive(Clone, Copy, Debug, PartialEq, Eq, Hash)]
pub enum Edit {
    /// Copies the value: a move, a reload or a spill.
    Move {
        /// Where the value comes.
        to: Place,
        /// Where it is.
        from: Place,
        /// The value.
        value: Value,
    },
    /// Makes the value anew.
    Remat {
        /// Where the value comes.
        to: Place,
        /// The value.
        value: Value,
    },
    /// Saves a register, whatever it holds, to use it for something else.
    EmergencySpill {
        /// The slot, home of no value.
        to: Slot,
        /// The register.
        from: Reg,
    },
    /// Gives the register back what the emergency spill saved.
    EmergencyReload {
        /// The register.
        to: Reg,
        /// The slot.
        from: Slot,
    },
    /// Does nothing.
    None,
}

impl Edit {
    /// A move of the value.
    pub fn move_to(to: impl Into<Place>, from: impl Into<Place>, value: Value) -> Self {
        Self::Move { to: to.into(), from: from.into(), value }
    }

    /// A rematerialisation of the value.
    pub fn remat_to(to: impl Into<Place>, value: Value) -> Self {
        Self::Remat { to: to.into(), value }
    }

    /// The edit of the fields `kind,to,from,value`.
    pub(crate) fn read(kind: &str, to: &str, from: &str, value: &str) -> Option<Self> {
        Some(match (kind, <Option<Place>>::read(to)?, <Option<Place>>::read(from)?) {
            ("move", Some(to), Some(from)) => Self::Move { to, from, value: Value::read(value)? },
            ("remat", Some(to), None) => Self::Remat { to, value: Value::read(value)? },
            ("espill", Some(Place::Slot(to)), Some(Place::Reg(from))) => Self::EmergencySpill { to, from },
            ("ereload", Some(Place::Reg(to)), Some(Place::Slot(from))) => Self::EmergencyReload { to, from },
            ("none", None, None) => Self::None,
            _ => return None,
        })
    }
}

/// The fields `kind,to,from,value`.
impl fmt::Display for Edit {
    fn fmt(&self, f: &mut fmt::Formatter<'_>) -> fmt::Result {
        match self {
            Self::Move { to, from, value } => write!(f, "move,{to},{from},{value}"),
            Self::Remat { to, value } => write!(f, "remat,{to},-,{value}"),
            Self::EmergencySpill { to, from } => write!(f, "espill,s{to},r{from},-"),
            Self::EmergencyReload { to, from } => write!(f, "ereload,r{to},s{from},-"),
            Self::None => f.write_str("none,-,-,-"),
        }
    }
}
