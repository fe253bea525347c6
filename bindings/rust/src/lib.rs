//! A verified clean-up stage for compilers.
//!
//! A host compiler says by types what its function looks like after register allocation, in a [`Sheet`];
//! [`clean_sheet`] takes out the moves, reloads and spills that do nothing; the [`Answer`] says what to change.
//! What is accepted and what is done is proved; see the project's docs/ANSWER.md. `examples/title.rs` shows it on a
//! small function.
//!
//! ```
//! use drifthurdle::{clean_sheet, Change, Edit, Level, OpKind, Sheet};
//!
//! let mut sheet = Sheet::new();
//! let (slot, unit) = (sheet.slot(), sheet.unit());
//! let reg = sheet.reg(&[unit]);
//! let class = sheet.class_with_slots(&[reg]);
//! let value = sheet.value(slot);
//! let block = sheet.entry(3);
//! let insts: Vec<_> = sheet.insts(block).collect();
//! sheet.op(insts[0], OpKind::Def(value), class, reg);
//! sheet.op(insts[1], OpKind::Use(value), class, slot);
//! sheet.edit(insts[1], Edit::move_to(slot, reg, value));
//! for change in clean_sheet(&sheet, Level::Forward, true)?.changes() {
//!     match change {
//!         Change::Fold { inst, operand, reg } => println!("operand {operand} of {inst} is read from r{reg}"),
//!         Change::Source { edit, reg } => println!("edit {edit} moves from r{reg}"),
//!         Change::Removed { edit } => println!("edit {edit} goes"),
//!     }
//! }
//! # Ok::<(), drifthurdle::Refusal>(())
//! ```
//!
//! [`clean`] is the call itself, on a sheet's bytes, for a host that prints its rows:
//!
//! ```
//! use drifthurdle::{clean, Level, Refusal};
//!
//! let sheet = "slots,1\r\nreg,0,0,0\r\nclass,0,1,0\r\nvalue,0,0\r\nblock,0,3,-,1\r\nop,0,def,0,c0,r0\r\nop,1,use,0,c0,s0\r\nedit,1,move,s0,r0,0\r\n";
//! let mut out = [0; 100];
//! let n = clean(sheet.as_bytes(), Level::Local, true, &mut out).unwrap();
//! assert_eq!(&out[..n], b"fold,1,0,r0\r\nedit,1,none,-,-,-\r\ncount,0,0,0,0,0,0,1,1,0\r\n");
//! assert_eq!(clean(b"", Level::Local, true, &mut out), Err(Refusal::Rows));
//!
//! let refusal = clean(b"slots,0\r\nblock,0,1,0,1\r\n", Level::Local, true, &mut out).unwrap_err();
//! assert_eq!((refusal.number(), refusal.row()), (11, Some(2)));
//! assert_eq!(refusal.to_string(), "refusal 11 at row 2: sole predecessor or idom not smaller than its block");
//! ```
#![deny(missing_docs)]

mod answer;
mod call;
mod fields;
mod nouns;
mod numbers;
mod refusal;
mod rows;
mod sheet;

pub use answer::{Answer, Change, Counts, Edited, Fold, Outcome};
pub use call::{clean, clean_sheet, Level};
pub use nouns::{Constraint, Edit, OpKind};
pub use numbers::{Block, Class, EditNumber, Group, Inst, Place, Reg, Slot, Unit, Value, ValueGroup};
pub use refusal::Refusal;
pub use sheet::Sheet;
