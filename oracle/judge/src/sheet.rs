//! Document 01's sheet: its limits, its nouns, and writing rows. Reading is in
//! read.rs, what is accepted in accept.rs. Written from the paper alone; shares
//! nothing with the originals.

use std::collections::HashSet;
use std::ops::{Deref, Range};
use std::sync::Mutex;

pub const MAX_SHEET: usize = 65_536;
pub const MAX_SLOTS: usize = 64;
pub const MAX_REGS: usize = 128;
pub const MAX_UNIT: u32 = 127;
pub const MAX_CLASSES: usize = 16;
pub const MAX_GROUPS: usize = 32;
pub const MAX_VALUES: usize = 256;
pub const MAX_VGROUPS: usize = 32;
pub const MAX_BLOCKS: usize = 64;
pub const MAX_INSTS: usize = 512;
pub const MAX_OPS: usize = 2048;
pub const MAX_EDITS: usize = 1024;
pub const MAX_REUSE: u32 = 127;

#[derive(Clone, Copy, PartialEq, Eq, Hash, Debug)]
pub enum Place {
    Reg(u32),
    Slot(u32),
}

#[derive(Clone, Copy, PartialEq, Eq, Debug)]
pub enum Con {
    Class(u32),
    Fixed(u32),
    Reuse(u32),
}

#[derive(Clone, Copy, PartialEq, Eq, Debug)]
pub enum OpKind {
    Def,
    Use,
    Early,
    DefG,
    UseG,
    EarlyG,
    Fixed,
}

impl OpKind {
    pub const ALL: [OpKind; 7] = [
        OpKind::Def,
        OpKind::Use,
        OpKind::Early,
        OpKind::DefG,
        OpKind::UseG,
        OpKind::EarlyG,
        OpKind::Fixed,
    ];
    pub fn is_group(self) -> bool {
        matches!(self, OpKind::DefG | OpKind::UseG | OpKind::EarlyG)
    }
    pub fn name(self) -> &'static str {
        match self {
            OpKind::Def => "def",
            OpKind::Use => "use",
            OpKind::Early => "early",
            OpKind::DefG => "defg",
            OpKind::UseG => "useg",
            OpKind::EarlyG => "earlyg",
            OpKind::Fixed => "fixed",
        }
    }
}

#[derive(Clone, PartialEq, Eq, Debug)]
pub struct Reg {
    pub memory: bool,
    pub units: Vec<u32>,
}

#[derive(Clone, PartialEq, Eq, Debug)]
pub struct Class {
    pub slots: bool,
    pub regs: Vec<u32>,
}

#[derive(Clone, PartialEq, Eq, Debug)]
pub struct Group {
    pub class: u32,
    pub regs: Vec<u32>,
}

/// A value's recipe: its `iremat` row and the `rin` rows after it.
#[derive(Clone, PartialEq, Eq, Debug)]
pub struct Recipe {
    pub value: u32,
    pub con: Con,
    /// The destination may overlap the inputs.
    pub overlap: bool,
    pub inputs: Vec<Rin>,
}

#[derive(Clone, Copy, PartialEq, Eq, Debug)]
pub struct Rin {
    pub kind: OpKind,
    /// 0 for `fixed`.
    pub subject: u32,
    pub con: Con,
}

#[derive(Clone, PartialEq, Eq, Debug)]
pub struct Block {
    pub insts: u32,
    pub idom: Option<u32>,
    pub entry: bool,
}

#[derive(Clone, Copy, PartialEq, Eq, Debug)]
pub struct Param {
    pub block: u32,
    pub value: u32,
    pub place: Place,
}

#[derive(Clone, Copy, PartialEq, Eq, Debug)]
pub struct Op {
    pub inst: u32,
    pub kind: OpKind,
    /// 0 for `fixed`.
    pub subject: u32,
    pub con: Con,
    pub place: Place,
}

#[derive(Clone, Copy, PartialEq, Eq, Debug)]
pub enum Edit {
    Move { to: Place, from: Place, value: u32 },
    Remat { to: Place, value: u32 },
    Irem { to: Place, value: u32, inputs: Inputs },
    Espill { to: Place, from: Place },
    Ereload { to: Place, from: Place },
    None,
}

/// The inputs of an `irem`. Equal lists are kept once and never given back, so that an
/// edit is copied like a number.
#[derive(Clone, Copy, PartialEq, Eq, Debug)]
pub struct Inputs(&'static [Place]);

static KEPT: Mutex<Option<HashSet<&'static [Place]>>> = Mutex::new(None);

impl Inputs {
    pub fn new(list: &[Place]) -> Self {
        let mut kept = KEPT.lock().unwrap();
        let kept = kept.get_or_insert_default();
        if let Some(same) = kept.get(list) {
            return Self(same);
        }
        let list: &'static [Place] = Vec::leak(list.to_vec());
        kept.insert(list);
        Self(list)
    }
}

impl Deref for Inputs {
    type Target = [Place];
    fn deref(&self) -> &[Place] {
        self.0
    }
}

#[derive(Clone, Default, PartialEq, Eq, Debug)]
pub struct Sheet {
    pub slots: u32,
    pub regs: Vec<Reg>,
    pub classes: Vec<Class>,
    pub groups: Vec<Group>,
    pub homes: Vec<Option<u32>>,
    pub vgroups: Vec<Vec<u32>>,
    pub recipes: Vec<Recipe>,
    pub blocks: Vec<Block>,
    pub succs: Vec<(u32, Vec<u32>)>,
    pub preds: Vec<(u32, Vec<u32>)>,
    pub params: Vec<Param>,
    pub ops: Vec<Op>,
    pub clobs: Vec<(u32, Vec<u32>)>,
    pub edits: Vec<(u32, Edit)>,
}

impl Sheet {
    pub fn num_insts(&self) -> usize {
        self.blocks.iter().map(|b| b.insts as usize).sum()
    }

    pub fn recipe(&self, value: u32) -> Option<&Recipe> {
        self.recipes.iter().find(|r| r.value == value)
    }

    /// The neighbours of each block, absent rows meaning none.
    pub fn neighbours(&self, rows: &[(u32, Vec<u32>)]) -> Vec<Vec<u32>> {
        let mut all = vec![vec![]; self.blocks.len()];
        for (b, l) in rows {
            if let Some(at) = all.get_mut(*b as usize) {
                *at = l.clone();
            }
        }
        all
    }

    /// The operands of an instruction, as places in the list.
    pub fn ops_of(&self, inst: u32) -> Range<usize> {
        self.ops.partition_point(|o| o.inst < inst)..self.ops.partition_point(|o| o.inst <= inst)
    }

    /// The edits before an instruction, as places in the list; they must be in order.
    pub fn edits_of(&self, inst: u32) -> Range<usize> {
        self.edits.partition_point(|e| e.0 < inst)..self.edits.partition_point(|e| e.0 <= inst)
    }

    /// The block of each instruction.
    pub fn inst_blocks(&self) -> Vec<u32> {
        let mut all = vec![];
        for (b, block) in self.blocks.iter().enumerate() {
            for _ in 0..block.insts {
                all.push(b as u32);
            }
        }
        all
    }
}

// ---- printing --------------------------------------------------------------------

pub fn put_place(out: &mut Vec<u8>, p: Place) {
    match p {
        Place::Reg(x) => {
            out.push(b'r');
            put_num(out, x);
        }
        Place::Slot(x) => {
            out.push(b's');
            put_num(out, x);
        }
    }
}

pub fn put_num(out: &mut Vec<u8>, n: u32) {
    let mut digits = [0u8; 10];
    let mut at = 10;
    let mut n = n;
    loop {
        at -= 1;
        digits[at] = b'0' + (n % 10) as u8;
        n /= 10;
        if n == 0 {
            break;
        }
    }
    out.extend_from_slice(&digits[at..]);
}

pub fn put_edit(out: &mut Vec<u8>, inst: u32, edit: Edit) {
    out.extend_from_slice(b"edit,");
    put_num(out, inst);
    match edit {
        Edit::Move { to, from, value } => {
            out.extend_from_slice(b",move,");
            put_place(out, to);
            out.push(b',');
            put_place(out, from);
            out.push(b',');
            put_num(out, value);
        }
        Edit::Remat { to, value } => {
            out.extend_from_slice(b",remat,");
            put_place(out, to);
            out.extend_from_slice(b",-,");
            put_num(out, value);
        }
        Edit::Irem { to, value, inputs } => {
            out.extend_from_slice(b",irem,");
            put_place(out, to);
            out.extend_from_slice(b",-,");
            put_num(out, value);
            for &p in inputs.iter() {
                out.push(b',');
                put_place(out, p);
            }
        }
        Edit::Espill { to, from } | Edit::Ereload { to, from } => {
            out.extend_from_slice(if matches!(edit, Edit::Espill { .. }) {
                b",espill,"
            } else {
                b",ereload,"
            });
            put_place(out, to);
            out.push(b',');
            put_place(out, from);
            out.extend_from_slice(b",-");
        }
        Edit::None => out.extend_from_slice(b",none,-,-,-"),
    }
    out.extend_from_slice(b"\r\n");
}

impl Sheet {
    pub fn print(&self) -> Vec<u8> {
        let mut out: Vec<u8> = vec![];
        let join = |l: &[u32]| l.iter().map(|n| format!(",{n}")).collect::<String>();
        let dash = |n: Option<u32>| n.map_or("-".to_string(), |n| n.to_string());
        let pl = |p: Place| match p {
            Place::Reg(x) => format!("r{x}"),
            Place::Slot(x) => format!("s{x}"),
        };
        let con = |c: Con| match c {
            Con::Class(n) => format!("c{n}"),
            Con::Fixed(n) => format!("f{n}"),
            Con::Reuse(n) => format!("u{n}"),
        };
        let subject = |kind: OpKind, n: u32| dash((kind != OpKind::Fixed).then_some(n));
        let mut row = |s: String| {
            out.extend_from_slice(s.as_bytes());
            out.extend_from_slice(b"\r\n");
        };
        row(format!("slots,{}", self.slots));
        for (i, g) in self.regs.iter().enumerate() {
            row(format!("reg,{i},{}{}", g.memory as u32, join(&g.units)));
        }
        for (i, c) in self.classes.iter().enumerate() {
            row(format!("class,{i},{}{}", c.slots as u32, join(&c.regs)));
        }
        for (i, g) in self.groups.iter().enumerate() {
            row(format!("group,{i},{}{}", g.class, join(&g.regs)));
        }
        for (i, h) in self.homes.iter().enumerate() {
            row(format!("value,{i},{}", dash(*h)));
        }
        for (i, g) in self.vgroups.iter().enumerate() {
            row(format!("vgroup,{i}{}", join(g)));
        }
        for r in &self.recipes {
            row(format!("iremat,{},{},{}", r.value, con(r.con), r.overlap as u32));
            for i in &r.inputs {
                let of = subject(i.kind, i.subject);
                row(format!("rin,{},{},{of},{}", r.value, i.kind.name(), con(i.con)));
            }
        }
        for (i, b) in self.blocks.iter().enumerate() {
            row(format!("block,{i},{},{},{}", b.insts, dash(b.idom), b.entry as u32));
        }
        for (b, l) in &self.succs {
            row(format!("succ,{b}{}", join(l)));
        }
        for (b, l) in &self.preds {
            row(format!("pred,{b}{}", join(l)));
        }
        for p in &self.params {
            row(format!("param,{},{},{}", p.block, p.value, pl(p.place)));
        }
        for o in &self.ops {
            let (of, at) = (subject(o.kind, o.subject), pl(o.place));
            row(format!("op,{},{},{of},{},{at}", o.inst, o.kind.name(), con(o.con)));
        }
        for (i, l) in &self.clobs {
            row(format!("clob,{i}{}", join(l)));
        }
        for &(i, e) in &self.edits {
            put_edit(&mut out, i, e);
        }
        out
    }
}
