//! What stands in the blocks of a random sheet: parameters, operands, clobbers, edits.

use super::{AT_LIMITS, Gen, LARGE, Shape};
use crate::rng::Rng;
use crate::sheet::*;

/// How a sheet behaves: chances in a hundred, and how many things are hot.
struct Mood {
    op_per_inst: usize,
    edit_per_inst: usize,
    clob: usize,
    def: usize,
    early: usize,
    group: usize,
    reuse: usize,
    in_memory: usize,
    to_reg: usize,
    remat: usize,
    emergency: usize,
    none: usize,
    hot_values: usize,
    hot_regs: usize,
    hot_slots: usize,
    repeat: usize,
    /// Other things are hot in each block.
    per_block: bool,
}

/// What edits and operands mostly name.
struct Hot {
    values: Vec<u32>,
    regs: Vec<u32>,
    slots: Vec<u32>,
}

/// Some of `0..n`, one at least if there is one.
fn some_of(rng: &mut Rng, n: usize, k: usize) -> Vec<u32> {
    let mut l: Vec<u32> = (0..n as u32).collect();
    rng.shuffle(&mut l);
    l.truncate(k.max(1));
    l
}

/// What emergency pairs can use, and the one that is open.
struct Pairs {
    regs: Vec<u32>,
    slots: Vec<u32>,
    open: Option<(u32, u32)>,
}

impl Pairs {
    fn new(s: &Sheet) -> Self {
        let shares = |a: &Reg, b: &Reg| a.units.iter().any(|u| b.units.contains(u));
        let lone = |&r: &u32| {
            let mine = &s.regs[r as usize];
            s.regs.iter().enumerate().all(|(x, g)| x == r as usize || !shares(g, mine))
        };
        Self {
            regs: (0..s.regs.len() as u32).filter(lone).collect(),
            slots: (0..s.slots).filter(|x| !s.homes.contains(&Some(*x))).collect(),
            open: None,
        }
    }
    fn close(&mut self) -> Option<Edit> {
        let (slot, reg) = self.open.take()?;
        Some(Edit::Ereload { to: Place::Reg(reg), from: Place::Slot(slot) })
    }
}

impl Gen<'_> {
    pub(super) fn body(&mut self, s: &mut Sheet, shape: &Shape, which: usize) {
        let mut m = self.mood();
        if which == AT_LIMITS {
            (m.op_per_inst, m.edit_per_inst) = (400, 200);
        }
        let mut hot = Hot {
            values: some_of(self.rng, s.homes.len(), m.hot_values),
            regs: some_of(self.rng, s.regs.len(), m.hot_regs),
            slots: some_of(self.rng, s.slots as usize, m.hot_slots),
        };
        m.per_block = self.rng.pct(30);
        if self.rng.pct(50) {
            self.params(s, &m, &hot);
        }
        self.operands(s, shape, which, &m, &mut hot);
        self.clobbers(s, &m, &hot);
        self.edits(s, shape, which, &m, &mut hot);
    }

    fn mood(&mut self) -> Mood {
        let calm = self.rng.pct(45);
        let mut pct = |l: &[usize]| self.rng.pick(l);
        Mood {
            op_per_inst: pct(&[40, 80, 150, 250]),
            edit_per_inst: pct(&[30, 80, 150, 250]),
            clob: if calm { pct(&[0, 3, 8]) } else { pct(&[5, 20, 40]) },
            def: if calm { pct(&[8, 15]) } else { pct(&[20, 40]) },
            early: pct(&[0, 20, 40]),
            group: pct(&[0, 8, 20, 40]),
            reuse: pct(&[0, 6, 15, 30]),
            in_memory: pct(&[20, 50, 80]),
            to_reg: pct(&[30, 55, 75]),
            remat: pct(&[0, 10, 25]),
            emergency: pct(&[0, 5, 12, 30]),
            none: pct(&[0, 2, 6]),
            hot_values: pct(&[1, 2, 4, 8]),
            hot_regs: pct(&[1, 2, 4, 8]),
            hot_slots: pct(&[1, 2, 4]),
            repeat: pct(&[0, 20, 40]),
            per_block: false,
        }
    }

    /// So many in a hundred, as a number of whole things.
    fn times(&mut self, pct: usize) -> usize {
        pct / 100 + self.rng.pct(pct % 100) as usize
    }

    // ---- names -------------------------------------------------------------------

    fn value(&mut self, s: &Sheet, hot: &Hot) -> u32 {
        if self.rng.pct(88) {
            self.rng.pick(&hot.values)
        } else {
            self.rng.below(s.homes.len()) as u32
        }
    }

    fn slot(&mut self, s: &Sheet, hot: &Hot, value: u32) -> u32 {
        match s.homes[value as usize] {
            Some(h) if self.rng.pct(65) => h,
            _ if self.rng.pct(70) && !hot.slots.is_empty() => self.rng.pick(&hot.slots),
            _ => self.rng.below(s.slots as usize) as u32,
        }
    }

    fn reg(&mut self, s: &Sheet, hot: &Hot) -> u32 {
        if self.rng.pct(80) {
            self.rng.pick(&hot.regs)
        } else {
            self.rng.below(s.regs.len()) as u32
        }
    }

    /// A slot with so many in a hundred, or a register.
    fn place(&mut self, s: &Sheet, hot: &Hot, value: u32, in_slot: usize) -> Place {
        if s.slots > 0 && self.rng.pct(in_slot) {
            Place::Slot(self.slot(s, hot, value))
        } else {
            Place::Reg(self.reg(s, hot))
        }
    }

    /// A class constraint and a place that fits it.
    fn in_class(&mut self, s: &Sheet, m: &Mood, hot: &Hot, v: u32) -> Option<(Con, Place)> {
        for _ in 0..8 {
            let c = if self.rng.pct(55) { 0 } else { self.rng.below(s.classes.len()) };
            let class = &s.classes[c];
            let con = Con::Class(c as u32);
            if class.slots && s.slots > 0 && self.rng.pct(m.in_memory) {
                return Some((con, Place::Slot(self.slot(s, hot, v))));
            }
            if !class.regs.is_empty() {
                return Some((con, Place::Reg(self.hot_one(hot, &class.regs, 80))));
            }
        }
        None
    }

    /// One of the list: a hot register with so many in a hundred.
    fn hot_one(&mut self, hot: &Hot, list: &[u32], pct: usize) -> u32 {
        let hot: Vec<u32> = hot.regs.iter().copied().filter(|r| list.contains(r)).collect();
        if !hot.is_empty() && self.rng.pct(pct) { self.rng.pick(&hot) } else { self.rng.pick(list) }
    }

    // ---- parameters --------------------------------------------------------------

    fn params(&mut self, s: &mut Sheet, m: &Mood, hot: &Hot) {
        for block in 0..s.blocks.len() as u32 {
            let k = if self.rng.pct(40) { self.rng.range(1, 3) } else { 0 };
            for _ in 0..k {
                let value = self.value(s, hot);
                let place = self.place(s, hot, value, m.in_memory);
                if self.odd || !s.params.iter().any(|q| q.block == block && q.value == value) {
                    s.params.push(Param { block, value, place });
                }
            }
        }
    }

    // ---- operands ----------------------------------------------------------------

    fn operands(&mut self, s: &mut Sheet, shape: &Shape, which: usize, m: &Mood, hot: &mut Hot) {
        let block_of = s.inst_blocks();
        for inst in 0..block_of.len() {
            if m.per_block && inst > 0 && block_of[inst] != block_of[inst - 1] {
                hot.values = some_of(self.rng, s.homes.len(), m.hot_values);
            }
            let mut k = self.times(m.op_per_inst);
            if self.rng.pct(2) {
                k += self.rng.range(1, 6);
            }
            if which == LARGE && self.rng.below(400) == 0 {
                k += 130;
            }
            let mut ops: Vec<Op> = vec![];
            while ops.len() < k {
                self.operand(s, m, hot, inst as u32, &mut ops);
            }
            if s.ops.len() + ops.len() > shape.ops.min(MAX_OPS) {
                break;
            }
            s.ops.extend(ops);
        }
        if which == AT_LIMITS {
            self.fill_operands(s, shape, hot);
        }
    }

    /// Up to the very limit: the last instruction takes the rest.
    fn fill_operands(&mut self, s: &mut Sheet, shape: &Shape, hot: &Hot) {
        let inst = s.num_insts() as u32 - 1;
        while s.ops.len() < shape.ops {
            let subject = self.value(s, hot);
            let r = self.rng.below(s.regs.len()) as u32;
            let (con, place) = (Con::Fixed(r), Place::Reg(r));
            s.ops.push(Op { inst, kind: OpKind::Use, subject, con, place });
        }
    }

    /// One operand more, or a use with a definition that reuses it.
    fn operand(&mut self, s: &Sheet, m: &Mood, hot: &Hot, inst: u32, ops: &mut Vec<Op>) {
        if self.rng.pct(4) {
            let r = self.rng.below(s.regs.len()) as u32;
            let (con, place) = (Con::Fixed(r), Place::Reg(r));
            ops.push(Op { inst, kind: OpKind::Fixed, subject: 0, con, place });
            return;
        }
        if self.rng.pct(m.group) && self.group_operand(s, m, inst, ops) {
            return;
        }
        let subject = self.value(s, hot);
        if self.rng.pct(m.reuse) && ops.len() < 126 {
            if let Some((con, place)) = self.in_class(s, m, hot, subject) {
                let other = self.value(s, hot);
                let used = Op { inst, kind: OpKind::Use, subject, con, place };
                self.reuse(ops, used, OpKind::Def, other);
                return;
            }
        }
        let kind = if !self.rng.pct(m.def) {
            OpKind::Use
        } else if self.rng.pct(m.early) {
            OpKind::Early
        } else {
            OpKind::Def
        };
        let (con, place) = match self.in_class(s, m, hot, subject) {
            Some(x) if !self.rng.pct(15) => x,
            _ => {
                let r = self.reg(s, hot);
                (Con::Fixed(r), Place::Reg(r))
            }
        };
        ops.push(Op { inst, kind, subject, con, place });
    }

    /// The operand and a definition that reuses it, in either order.
    fn reuse(&mut self, ops: &mut Vec<Op>, used: Op, kind: OpKind, subject: u32) {
        let at = ops.len() as u32;
        if self.rng.pct(30) {
            ops.extend([Op { kind, subject, con: Con::Reuse(at + 1), ..used }, used]);
        } else {
            ops.extend([used, Op { kind, subject, con: Con::Reuse(at), ..used }]);
        }
    }

    /// A value group, a class and the first register of a group that fit together.
    fn fitting_group(&mut self, s: &Sheet) -> Option<(u32, u32, Place)> {
        if s.groups.is_empty() || s.vgroups.is_empty() {
            return None;
        }
        for _ in 0..8 {
            let g = &s.groups[self.rng.below(s.groups.len())];
            let v = self.rng.below(s.vgroups.len());
            if g.regs.len() == s.vgroups[v].len()
                && (self.odd || s.classes[g.class as usize].regs.contains(&g.regs[0]))
            {
                return Some((v as u32, g.class, Place::Reg(g.regs[0])));
            }
        }
        None
    }

    /// False if no group fits.
    fn group_operand(&mut self, s: &Sheet, m: &Mood, inst: u32, ops: &mut Vec<Op>) -> bool {
        let Some((subject, class, place)) = self.fitting_group(s) else {
            return false;
        };
        let con = Con::Class(class);
        if self.rng.pct(m.reuse) && ops.len() < 126 {
            let len = |g: u32| s.vgroups[g as usize].len();
            // Another value group of the same length, if one comes up.
            let other = self.fitting_group(s).map(|g| g.0).filter(|&g| len(g) == len(subject));
            let used = Op { inst, kind: OpKind::UseG, subject, con, place };
            self.reuse(ops, used, OpKind::DefG, other.unwrap_or(subject));
        } else {
            let kinds = [OpKind::DefG, OpKind::UseG, OpKind::EarlyG];
            let kind = kinds[self.rng.weighted(&[40, 30, 30])];
            ops.push(Op { inst, kind, subject, con, place });
        }
        true
    }

    // ---- clobbers ----------------------------------------------------------------

    fn clobbers(&mut self, s: &mut Sheet, m: &Mood, hot: &Hot) {
        let units_of = |regs: &mut dyn Iterator<Item = &Reg>| {
            let mut l: Vec<u32> = regs.flat_map(|r| r.units.iter().copied()).collect();
            l.sort();
            l.dedup();
            l
        };
        let all = units_of(&mut s.regs.iter());
        let in_use = units_of(&mut hot.regs.iter().map(|&r| &s.regs[r as usize]));
        for inst in 0..s.num_insts() as u32 {
            if self.rng.pct(m.clob) {
                // Half of the time units of registers in use, perhaps not all of one.
                let mut l = if self.rng.pct(50) { in_use.clone() } else { all.clone() };
                self.rng.shuffle(&mut l);
                let whole = self.rng.pct(10) && l.len() < 20;
                let k = if whole { l.len() } else { self.rng.range(1, 3) };
                l.truncate(k);
                s.clobs.push((inst, l));
            }
        }
    }

    // ---- edits -------------------------------------------------------------------

    fn edits(&mut self, s: &mut Sheet, shape: &Shape, which: usize, m: &Mood, hot: &mut Hot) {
        let block_of = s.inst_blocks();
        let insts = block_of.len();
        let most = shape.edits.min(MAX_EDITS);
        let mut pairs = Pairs::new(s);
        let mut recent: Vec<Edit> = vec![];
        for inst in 0..insts {
            let first = inst == 0 || block_of[inst - 1] != block_of[inst];
            let last = inst + 1 == insts || block_of[inst + 1] != block_of[inst];
            if first && m.per_block {
                hot.values = some_of(self.rng, s.homes.len(), m.hot_values);
                hot.regs = some_of(self.rng, s.regs.len(), m.hot_regs);
                hot.slots = some_of(self.rng, s.slots as usize, m.hot_slots);
            }
            for _ in 0..self.times(m.edit_per_inst) {
                // Room for the end of a pair.
                if s.edits.len() + 2 >= most {
                    break;
                }
                let e = self.edit(s, m, hot, &mut pairs, &recent);
                if matches!(e, Edit::Move { .. } | Edit::Remat { .. }) {
                    recent.push(e);
                    if recent.len() > 12 {
                        recent.remove(0);
                    }
                }
                s.edits.push((inst as u32, e));
            }
            if last {
                s.edits.extend(pairs.close().map(|e| (inst as u32, e)));
            }
        }
        while which == AT_LIMITS && s.edits.len() < shape.edits {
            s.edits.push((insts as u32 - 1, Edit::None));
        }
    }

    fn edit(&mut self, s: &Sheet, m: &Mood, hot: &Hot, p: &mut Pairs, recent: &[Edit]) -> Edit {
        if self.rng.pct(m.none) {
            return Edit::None;
        }
        if let Some(e) = self.emergency(m, hot, p) {
            return e;
        }
        if !recent.is_empty() && self.rng.pct(m.repeat) {
            let e = self.rng.pick(recent);
            return self.again(s, hot, e);
        }
        let value = self.value(s, hot);
        let to = if s.slots > 0 && !self.rng.pct(m.to_reg) {
            Place::Slot(self.slot(s, hot, value))
        } else {
            Place::Reg(self.reg(s, hot))
        };
        if self.rng.pct(m.remat) {
            return Edit::Remat { to, value };
        }
        let from = self.place(s, hot, value, 55);
        Edit::Move { to, from, value }
    }

    /// The end of the open pair, or the start of one, now and then.
    fn emergency(&mut self, m: &Mood, hot: &Hot, p: &mut Pairs) -> Option<Edit> {
        if p.open.is_some() {
            return if self.rng.pct(30) { p.close() } else { None };
        }
        if p.regs.is_empty() || p.slots.is_empty() || !self.rng.pct(m.emergency) {
            return None;
        }
        let reg = self.hot_one(hot, &p.regs, 85);
        let slot = self.rng.pick(&p.slots);
        p.open = Some((slot, reg));
        Some(Edit::Espill { to: Place::Slot(slot), from: Place::Reg(reg) })
    }

    /// The same target and value again, perhaps from elsewhere.
    fn again(&mut self, s: &Sheet, hot: &Hot, e: Edit) -> Edit {
        match e {
            Edit::Move { to, value, .. } if self.rng.pct(50) => {
                let from = self.place(s, hot, value, 60);
                Edit::Move { to, from, value }
            }
            _ => e,
        }
    }
}
