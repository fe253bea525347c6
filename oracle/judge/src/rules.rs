//! Document 01's forward rules and sweep, written from its text alone with plain
//! tables; no line is shared with the originals. `oracle diff` compares the two.

use std::collections::BTreeSet;

use crate::requests;
use crate::run::Outcome;
use crate::sheet::{Con, Edit, Group, Inputs, OpKind, Place, Recipe, Rin, Sheet};

#[derive(Clone, Copy, PartialEq, Eq, PartialOrd, Ord)]
enum Pair {
    Reg { value: usize, reg: usize },
    Slot { slot: usize, value: usize },
}

struct Record {
    /// Per value, per register: does the register hold the value?
    holds: Vec<Vec<bool>>,
    /// Per unit: the last (register, value).
    last: Vec<Option<(usize, usize)>>,
    /// Per slot: the value, whose home it is, that it holds.
    slot: Vec<Option<usize>>,
    def_block: Vec<Option<usize>>,
    spilled: Vec<Option<usize>>,
    notes: Vec<(usize, (usize, usize))>,
    /// Units that the present instruction defined.
    defined: Vec<bool>,
}

struct Rules<'a> {
    s: &'a Sheet,
    rec: Record,
    edits: Vec<(u32, Edit)>,
    places: Vec<Place>,
    counts: [u32; 10],
    succs: Vec<Vec<u32>>,
    preds: Vec<Vec<u32>>,
    /// First instruction of each block, and one more.
    starts: Vec<u32>,
    /// 0, or a mistake put in on purpose (see `QUIRKS`).
    quirk: u32,
    /// Which of `BRANCHES` came up.
    seen: BTreeSet<&'static str>,
}

/// Mistakes that a port may make; `oracle quirks` tells which cases show each.
/// The number is the place in this list, from 1.
pub const QUIRKS: &[&str] = &[
    "1 last spilled blocks emptied before the optimising walk",
    "2 early definitions after the folding",
    "3 sweep: a dead move adds its source",
    "4 a register definition keeps the home slot",
    "5 a definition keeps the value's other registers",
    "6 a home-slot definition does not set the last spilled block",
    "7 another-slot definition keeps the home slot",
    "8 another-slot definition keeps that slot",
    "9 a move to another slot keeps it",
    "10 clobbers forget units that the instruction defined",
    "11 clobbers ignored",
    "12 parameters ignored",
    "13 a spill removed by dominance notes the slot",
    "14 dominance is the same block only",
    "15 dominance always",
    "16 a surviving spill does not set the last spilled block",
    "17 a reload may become a move from a memory register",
    "18 only slots are memory for a move's source",
    "19 highest register for a reload",
    "20 highest register for a fold",
    "21 fold outside the class",
    "22 fold of a reused operand",
    "23 fold to a memory register",
    "24 only slots are memory for a fold",
    "25 folding after the other definitions",
    "26 Global counts exit blocks",
    "27 Global takes the largest waiting block",
    "28 first state skips nothing",
    "29 first state skips with several successors too",
    "30 first state skips only larger defining blocks",
    "31 a value never defined counts as smallest",
    "32 later arrivals take nothing away",
    "33 successors wait only once",
    "34 Forward: loop headers take the first arrival",
    "35 Forward: every join is empty",
    "36 ereload restores nothing",
    "37 ereload adds only one-unit registers",
    "38 ereload adds without looking at the other units",
    "39 espill forgets its register",
    "40 preparing walk does early definitions first",
    "41 preparing walk sets last spilled blocks for moves",
    "42 a new block empties last spilled blocks",
    "43 a new block empties defining blocks",
    "44 group members defined in reverse",
    "45 only a group's first member defined",
    "46 sweep: uses before definitions",
    "47 sweep: an early definition does not take its slot away",
    "48 sweep: ereload adds nothing",
    "49 sweep: espill takes nothing away",
    "50 sweep: a remat does not take its target away",
    "51 sweep: a move adds its source before taking its target away",
    "52 sweep looks at the given places, not the folded ones",
    "53 sweep removes an espill not wanted",
    "54 sweep: one pass only",
    "55 a replaced source also for a move from a plain register",
    "56 a remat to the home slot does not set the last spilled block",
    "57 clobber exemption without early definitions",
    "58 forgetting a unit keeps the register with the value",
    "59 a move does not forget overlapping registers",
    "60 handed register pairs are no last writes",
    "61 slot pairs not handed on",
    "62 register pairs not handed on",
    "63 a redundant edit counted by its target, not its source",
    "64 a `use` with a fixed register folded",
    "65 redundancy of slots ignores which value is there",
    "66 a removed dominated spill still sets the last spilled block",
    "67 parameters defined before the handed pairs",
    "68 handed pairs do not meet: union instead",
    "69 dominance is block order",
    "70 edits after their instruction",
    "71 sweep keeps dead remats",
    // From here on request 2.
    "72 an input that meets the destination is passed over for the next register",
    "73 overlap not looked at",
    "74 the reused input looked up by its own constraint",
    "75 a rebuilt reload does not count as a move too",
    "76 only plain registers serve as inputs",
    "77 highest register for an input",
    "78 slots never serve as inputs",
    "79 the home slot before a register",
    "80 the home slot without the class's slots flag",
    "81 the home slot whatever it holds",
    "82 a `use` with a fixed register whatever it holds",
    "83 a `fixed` input keeps apart",
    "84 the reused input keeps apart",
    "85 registers meet by number",
    "86 a group meets by its first register only",
    "87 groups of unequal length never fit",
    "88 only a group's first value looked at",
    "89 highest group for an input",
    "90 `u` of an absent input lets nothing pass",
    "91 a reused destination may be a slot",
    "92 a destination's class not looked at",
    "93 a slot never fits as destination",
    "94 only slots are memory for rebuilding",
    "95 a move from a plain register rebuilt",
    "96 a reload that became a move not rebuilt",
    "97 a given irem never removed",
    "98 a given irem rebuilt anew",
    "99 preparing walk passes over irems",
    "100 an irem to the home slot does not set the last spilled block",
    "101 an irem to another slot keeps it",
    "102 sweep: a dead irem adds its inputs",
    "103 sweep: an irem adds no input",
    "104 sweep: an irem adds its first input only",
    "105 sweep: an irem adds its inputs before taking its target away",
    "106 sweep: a dead irem counts as a dead spill",
    "107 sweep keeps dead irems",
    "108 sweep: a rebuilt move adds the source it had",
    "109 a rebuilt edit is not noted in the record",
];

const BEFORE_REQUEST_2: usize = 71;

/// The mistakes that a sheet can show.
pub fn quirks() -> &'static [&'static str] {
    if requests::recipes() { QUIRKS } else { &QUIRKS[..BEFORE_REQUEST_2] }
}

/// What can come up where a move from memory may be rebuilt: each branch of the Rust's
/// `indirect_remat_inputs`, and the cases that a port may take for one.
pub const BRANCHES: [&str; 41] = [
    "no recipe",
    "to c: a register of the class",
    "to c: a register outside the class",
    "to c: a slot with the flag",
    "to c: a slot without the flag",
    "to f: that register",
    "to f: another register",
    "to f: a slot",
    "to u: without that input",
    "to u: a register",
    "to u: a slot",
    "use c: one register",
    "use c: the lowest of several registers",
    "use c: a memory register before a plain one",
    "use c: the home slot",
    "use c: no register, no slots flag",
    "use c: no register, no home slot",
    "use c: no register, not in the home slot",
    "use f: held",
    "use f: not held",
    "use, reused: held",
    "use, reused: held, against its own constraint",
    "use, reused: not held",
    "useg: first value in no register",
    "useg: a register that begins no group",
    "useg: a later value not held",
    "useg: the lowest of several groups",
    "useg: found, of equal length",
    "useg: found, the value group longer",
    "useg: found, the register group longer",
    "fixed",
    "apart from the destination",
    "the destination's register itself",
    "the destination's slot itself",
    "a register that shares a unit with the destination",
    "useg: a later register meets the destination",
    "fixed: meets the destination",
    "overlap allowed",
    "overlap forbidden: use c",
    "overlap forbidden: use f",
    "overlap forbidden: useg",
];

const PRE: usize = 0;
const RELOAD: usize = 1;
const MOVE: usize = 2;
const REMAT: usize = 3;
const SPILL: usize = 4;
const TO_MOVE: usize = 5;
const STACK_USE: usize = 6;
const DEAD_SPILL: usize = 7;
const DEAD_REMAT: usize = 8;
const TO_IREM: usize = 9;

impl Rules<'_> {
    fn q(&self, n: u32) -> bool {
        self.quirk == n
    }
    fn home(&self, v: usize) -> Option<usize> {
        self.s.homes[v].map(|s| s as usize)
    }
    fn memory(&self, p: Place) -> bool {
        match p {
            Place::Slot(_) => true,
            Place::Reg(r) => self.s.regs[r as usize].memory,
        }
    }
    fn units(&self, r: usize) -> Vec<usize> {
        self.s.regs[r].units.iter().map(|&u| u as usize).collect()
    }
    fn dominates(&self, a: usize, b: usize) -> bool {
        if self.q(15) {
            return true;
        }
        if self.q(69) {
            return a <= b;
        }
        if self.q(14) {
            return a == b;
        }
        a == b
            || match self.s.blocks[b].idom {
                Some(d) => self.dominates(a, d as usize),
                None => false,
            }
    }

    fn forget(&mut self, unit: usize) {
        if let Some((reg, value)) = self.rec.last[unit].take() {
            if !self.q(58) {
                self.rec.holds[value][reg] = false;
            }
        }
    }
    fn write_reg(&mut self, reg: usize, value: usize) {
        for u in self.units(reg) {
            if !self.q(59) {
                self.forget(u);
            }
        }
        for u in self.units(reg) {
            self.rec.last[u] = Some((reg, value));
        }
    }
    fn define(&mut self, v: usize, place: Place, block: usize) {
        self.rec.def_block[v] = Some(block);
        match place {
            Place::Reg(r) => {
                let r = r as usize;
                self.write_reg(r, v);
                for u in self.units(r) {
                    self.rec.defined[u] = true;
                }
                if !self.q(5) {
                    self.rec.holds[v].fill(false);
                }
                self.rec.holds[v][r] = true;
                if let (Some(h), false) = (self.home(v), self.q(4)) {
                    self.rec.slot[h] = None;
                }
            }
            Place::Slot(s) => {
                let s = s as usize;
                self.rec.holds[v].fill(false);
                if self.home(v) == Some(s) {
                    self.rec.slot[s] = Some(v);
                    if !self.q(6) {
                        self.rec.spilled[v] = Some(block);
                    }
                } else {
                    if let (Some(h), false) = (self.home(v), self.q(7)) {
                        self.rec.slot[h] = None;
                    }
                    if !self.q(8) {
                        self.rec.slot[s] = None;
                    }
                }
            }
        }
    }
    fn define_group(&mut self, at: usize, block: usize) {
        let op = self.s.ops[at];
        let class = match op.con {
            Con::Class(c) => c,
            Con::Reuse(i) => {
                let first = self.s.ops.iter().position(|o| o.inst == op.inst).unwrap();
                match self.s.ops[first + i as usize].con {
                    Con::Class(c) => c,
                    _ => panic!(),
                }
            }
            Con::Fixed(_) => panic!(),
        };
        let Place::Reg(first) = self.places[at] else { panic!() };
        let group = self.s.groups.iter().find(|g| g.class == class && g.regs[0] == first).unwrap();
        let values = &self.s.vgroups[op.subject as usize];
        assert_eq!(group.regs.len(), values.len());
        let mut pairs: Vec<(u32, u32)> =
            values.iter().copied().zip(group.regs.iter().copied()).collect();
        if self.q(44) {
            pairs.reverse();
        }
        if self.q(45) {
            pairs.truncate(1);
        }
        for (v, r) in pairs {
            self.define(v as usize, Place::Reg(r), block);
        }
    }
    fn do_edit(&mut self, e: Edit) {
        match e {
            Edit::Move { to, value, .. }
            | Edit::Remat { to, value }
            | Edit::Irem { to, value, .. } => {
                let v = value as usize;
                match to {
                    Place::Reg(r) => {
                        self.write_reg(r as usize, v);
                        self.rec.holds[v][r as usize] = true;
                    }
                    Place::Slot(s) => {
                        let s = s as usize;
                        let irem = matches!(e, Edit::Irem { .. });
                        if self.home(v) == Some(s) {
                            self.rec.slot[s] = Some(v);
                        } else if !self.q(9) && !(self.q(101) && irem) {
                            self.rec.slot[s] = None;
                        }
                    }
                }
            }
            Edit::Espill { from: Place::Reg(r), .. } => {
                self.rec.notes = self
                    .units(r as usize)
                    .into_iter()
                    .filter_map(|u| self.rec.last[u].map(|w| (u, w)))
                    .collect();
                if self.q(39) {
                    for u in self.units(r as usize) {
                        self.forget(u);
                    }
                }
            }
            Edit::Ereload { to: Place::Reg(r), .. } => {
                for u in self.units(r as usize) {
                    self.forget(u);
                }
                if self.q(36) {
                    return;
                }
                for (u, w) in self.rec.notes.clone() {
                    self.rec.last[u] = Some(w);
                }
                for (_, (reg, value)) in self.rec.notes.clone() {
                    let units = self.units(reg);
                    if units.len() == 1
                        || self.q(38)
                        || !self.q(37)
                            && units.iter().all(|&u| self.rec.last[u].is_some_and(|w| w.1 == value))
                    {
                        self.rec.holds[value][reg] = true;
                    }
                }
            }
            Edit::None => {}
            _ => panic!(),
        }
    }
    fn forget_clobbers(&mut self, inst: u32) {
        if let Some((_, l)) = self.s.clobs.iter().find(|c| c.0 == inst) {
            for &u in l {
                if (!self.rec.defined[u as usize] || self.q(10)) && !self.q(11) {
                    self.forget(u as usize);
                }
            }
        }
    }
    fn begin(&mut self, block: usize, handed: &[Pair]) {
        for h in &mut self.rec.holds {
            h.fill(false);
        }
        self.rec.last.fill(None);
        self.rec.slot.fill(None);
        if self.q(42) {
            self.rec.spilled.fill(None);
        }
        if self.q(43) {
            self.rec.def_block.fill(None);
        }
        if self.q(67) {
            self.begin_params(block);
        }
        for &p in handed {
            match p {
                Pair::Reg { value, reg } => {
                    self.rec.holds[value][reg] = true;
                    if self.q(60) {
                        continue;
                    }
                    for u in self.units(reg) {
                        assert!(
                            self.rec.last[u].is_none() || self.quirk > 0,
                            "handed pairs overlap"
                        );
                        self.rec.last[u] = Some((reg, value));
                    }
                }
                Pair::Slot { slot, value } => self.rec.slot[slot] = Some(value),
            }
        }
        if !self.q(67) && !self.q(12) {
            self.begin_params(block);
        }
    }
    fn begin_params(&mut self, block: usize) {
        for p in self.s.params.clone() {
            if p.block as usize == block {
                self.define(p.value as usize, p.place, block);
            }
        }
    }
    fn ops_of(&self, inst: u32) -> Vec<usize> {
        let ops = &self.s.ops;
        (ops.partition_point(|o| o.inst < inst)..ops.partition_point(|o| o.inst <= inst)).collect()
    }
    fn edits_of(&self, inst: u32) -> Vec<usize> {
        let edits = &self.edits;
        (edits.partition_point(|e| e.0 < inst)..edits.partition_point(|e| e.0 <= inst)).collect()
    }

    /// The preparing walk over one block.
    fn prepare(&mut self, block: usize, handed: &[Pair]) {
        self.begin(block, handed);
        for inst in self.starts[block]..self.starts[block + 1] {
            for e in self.edits_of(inst) {
                if !self.q(99) || !matches!(self.edits[e].1, Edit::Irem { .. }) {
                    self.do_edit(self.edits[e].1);
                }
                if let (
                    true,
                    Edit::Move { to: Place::Slot(s), value: v, .. }
                    | Edit::Remat { to: Place::Slot(s), value: v }
                    | Edit::Irem { to: Place::Slot(s), value: v, .. },
                ) = (self.q(41), self.edits[e].1)
                {
                    if self.home(v as usize) == Some(s as usize) {
                        self.rec.spilled[v as usize] = Some(block);
                    }
                }
            }
            self.rec.defined.fill(false);
            let mut ops = self.ops_of(inst);
            if self.q(40) {
                ops.sort_by_key(|&at| {
                    !matches!(self.s.ops[at].kind, OpKind::Early | OpKind::EarlyG)
                });
            }
            for at in ops {
                let op = self.s.ops[at];
                match op.kind {
                    OpKind::Def | OpKind::Early => {
                        self.define(op.subject as usize, self.places[at], block)
                    }
                    OpKind::DefG | OpKind::EarlyG => self.define_group(at, block),
                    _ => {}
                }
            }
            self.forget_clobbers(inst);
        }
    }

    /// The optimising walk over one block.
    fn optimise(&mut self, block: usize, handed: &[Pair]) {
        self.begin(block, handed);
        for inst in self.starts[block]..self.starts[block + 1] {
            if !self.q(70) {
                self.optimise_edits(inst, block);
            }
            self.rec.defined.fill(false);
            let ops = self.ops_of(inst);
            if !self.q(2) {
                self.define_early(&ops, block);
            }
            if self.q(57) {
                self.rec.defined.fill(false);
            }
            if !self.q(25) {
                self.fold(&ops);
            }
            if self.q(2) {
                self.define_early(&ops, block);
            }
            for &at in &ops {
                let op = self.s.ops[at];
                match op.kind {
                    OpKind::Def => self.define(op.subject as usize, self.places[at], block),
                    OpKind::DefG => self.define_group(at, block),
                    _ => {}
                }
            }
            if self.q(25) {
                self.fold(&ops);
            }
            self.forget_clobbers(inst);
            if self.q(70) {
                self.optimise_edits(inst, block);
            }
        }
    }

    fn optimise_edits(&mut self, inst: u32, block: usize) {
        for e in self.edits_of(inst) {
            let given = self.edits[e].1;
            let new = self.optimise_edit(given, block);
            self.edits[e].1 = new;
            if !self.q(109) || new == given || !matches!(new, Edit::Irem { .. }) {
                self.do_edit(new);
            }
        }
    }

    fn define_early(&mut self, ops: &[usize], block: usize) {
        for &at in ops {
            let op = self.s.ops[at];
            match op.kind {
                OpKind::Early => self.define(op.subject as usize, self.places[at], block),
                OpKind::EarlyG => self.define_group(at, block),
                _ => {}
            }
        }
    }

    fn fold(&mut self, ops: &[usize]) {
        for (idx, &at) in ops.iter().enumerate() {
            let op = self.s.ops[at];
            let reused = ops.iter().any(|&o| self.s.ops[o].con == Con::Reuse(idx as u32));
            let members: Vec<u32> = match op.con {
                _ if self.q(21) => (0..self.s.regs.len() as u32).collect(),
                Con::Class(c) => self.s.classes[c as usize].regs.clone(),
                Con::Fixed(_) if self.q(64) => (0..self.s.regs.len() as u32).collect(),
                _ => continue,
            };
            let memory = match self.places[at] {
                Place::Reg(_) if self.q(24) => false,
                p => self.memory(p),
            };
            if op.kind != OpKind::Use || (reused && !self.q(22)) || !memory {
                continue;
            }
            let mut fits = (0..self.s.regs.len()).filter(|&r| {
                members.contains(&(r as u32))
                    && (!self.s.regs[r].memory || self.q(23))
                    && self.rec.holds[op.subject as usize][r]
            });
            let found = if self.q(20) { fits.last() } else { fits.next() };
            if let Some(r) = found {
                self.places[at] = Place::Reg(r as u32);
                self.counts[STACK_USE] += 1;
            }
        }
    }

    fn optimise_edit(&mut self, e: Edit, block: usize) -> Edit {
        let (to, from, v) = match e {
            Edit::Move { to, from, value } => (to, Some(from), value as usize),
            Edit::Remat { to, value } | Edit::Irem { to, value, .. } => (to, None, value as usize),
            _ => return e,
        };
        let given = matches!(e, Edit::Irem { .. });
        match to {
            _ if given && self.q(97) => {}
            Place::Reg(r) => {
                if self.rec.holds[v][r as usize] {
                    let which = match from {
                        Some(_) if self.q(63) && self.memory(to) => RELOAD,
                        Some(f) if self.memory(f) && !self.q(63) => RELOAD,
                        Some(_) => MOVE,
                        None => REMAT,
                    };
                    self.counts[which] += 1;
                    return Edit::None;
                }
            }
            Place::Slot(s) => {
                let s = s as usize;
                if self.rec.slot[s] == Some(v) || (self.q(65) && self.rec.slot[s].is_some()) {
                    self.counts[SPILL] += 1;
                    return Edit::None;
                }
                if self.home(v) == Some(s) {
                    if self.rec.spilled[v].is_some_and(|b| self.dominates(b, block)) {
                        self.counts[SPILL] += 1;
                        if self.q(13) {
                            self.rec.slot[s] = Some(v);
                        }
                        if self.q(66) {
                            self.rec.spilled[v] = Some(block);
                        }
                        return Edit::None;
                    }
                    if !self.q(16) && !(self.q(56) && from.is_none()) && !(self.q(100) && given) {
                        self.rec.spilled[v] = Some(block);
                    }
                }
            }
        }
        if given && self.q(98) {
            let inputs = self.rebuild(v, to);
            return inputs.map_or(e, |inputs| Edit::Irem { to, value: v as u32, inputs });
        }
        if let Some(from) = from {
            let memory = match from {
                Place::Reg(_) if self.q(18) => false,
                p => self.memory(p) || self.q(55),
            };
            if self.q(95) && !memory {
                let inputs = self.rebuild(v, to);
                return inputs.map_or(e, |inputs| Edit::Irem { to, value: v as u32, inputs });
            }
            if memory {
                let mut fits = (0..self.s.regs.len())
                    .filter(|&r| (!self.s.regs[r].memory || self.q(17)) && self.rec.holds[v][r]);
                let found = if self.q(19) { fits.last() } else { fits.next() };
                let mut now = e;
                if let Some(r) = found {
                    self.counts[TO_MOVE] += 1;
                    now = Edit::Move { to, from: Place::Reg(r as u32), value: v as u32 };
                }
                if self.q(94) && matches!(from, Place::Reg(_)) || self.q(96) && now != e {
                    return now;
                }
                if let Some(inputs) = self.rebuild(v, to) {
                    self.counts[TO_IREM] += 1;
                    self.counts[TO_MOVE] -= (self.q(75) && now != e) as u32;
                    now = Edit::Irem { to, value: v as u32, inputs };
                }
                return now;
            }
        }
        e
    }

    // ---- request 2: recipes ------------------------------------------------------

    fn saw(&mut self, what: &'static str) {
        self.seen.insert(what);
    }

    /// The inputs from which a surviving move of `v` from memory to `t` is rebuilt.
    fn rebuild(&mut self, v: usize, t: Place) -> Option<Inputs> {
        let Some(recipe) = self.s.recipe(v as u32) else {
            self.saw("no recipe");
            return None;
        };
        if !self.fits(recipe, t) {
            return None;
        }
        let mut places = vec![];
        for (at, input) in recipe.inputs.iter().enumerate() {
            let reused = recipe.con == Con::Reuse(at as u32);
            let covered = match reused && !self.q(74) {
                true => self.reused(input, t),
                false => self.found(input, t),
            }?;
            let looked = (!reused || self.q(84)) && (input.kind != OpKind::Fixed || self.q(83));
            if self.meets(&covered, t, input, reused) && looked {
                self.saw(match (recipe.overlap, input.kind, input.con) {
                    (true, _, _) => "overlap allowed",
                    (false, OpKind::UseG, _) => "overlap forbidden: useg",
                    (false, _, Con::Fixed(_)) => "overlap forbidden: use f",
                    (false, _, _) => "overlap forbidden: use c",
                });
                if !recipe.overlap && !self.q(73) {
                    return None;
                }
            }
            places.push(covered[0]);
        }
        Some(Inputs::new(&places))
    }

    fn fits(&mut self, recipe: &Recipe, t: Place) -> bool {
        let (fits, what) = match (recipe.con, t) {
            (Con::Class(c), Place::Reg(r)) => match self.s.classes[c as usize].regs.contains(&r) {
                true => (true, "to c: a register of the class"),
                false => (self.q(92), "to c: a register outside the class"),
            },
            (Con::Class(c), Place::Slot(_)) => match self.s.classes[c as usize].slots {
                true => (!self.q(93), "to c: a slot with the flag"),
                false => (self.q(92), "to c: a slot without the flag"),
            },
            (Con::Fixed(r), Place::Reg(x)) if x == r => (true, "to f: that register"),
            (Con::Fixed(_), Place::Reg(_)) => (false, "to f: another register"),
            (Con::Fixed(_), Place::Slot(_)) => (false, "to f: a slot"),
            (Con::Reuse(i), _) if i as usize >= recipe.inputs.len() => {
                (!self.q(90), "to u: without that input")
            }
            (Con::Reuse(_), Place::Reg(_)) => (true, "to u: a register"),
            (Con::Reuse(_), Place::Slot(_)) => (self.q(91), "to u: a slot"),
        };
        self.saw(what);
        fits
    }

    /// The reused input stands in the destination or nowhere.
    fn reused(&mut self, input: &Rin, t: Place) -> Option<Vec<Place>> {
        let n = input.subject as usize;
        let (held, allowed) = match t {
            Place::Reg(r) => {
                let allowed = match input.con {
                    Con::Class(c) => self.s.classes[c as usize].regs.contains(&r),
                    con => con == Con::Fixed(r),
                };
                (self.rec.holds[n][r as usize], allowed)
            }
            Place::Slot(x) => (self.rec.slot[x as usize] == Some(n), true),
        };
        self.saw(match (held, allowed) {
            (false, _) => "use, reused: not held",
            (true, true) => "use, reused: held",
            (true, false) => "use, reused: held, against its own constraint",
        });
        held.then_some(vec![t])
    }

    /// Where an input stands, first its place and then what else it covers.
    fn found(&mut self, input: &Rin, t: Place) -> Option<Vec<Place>> {
        let n = input.subject as usize;
        match (input.kind, input.con) {
            (OpKind::Fixed, Con::Fixed(r)) => {
                self.saw("fixed");
                Some(vec![Place::Reg(r)])
            }
            (OpKind::Use, Con::Fixed(r)) => {
                let held = self.rec.holds[n][r as usize];
                self.saw(if held { "use f: held" } else { "use f: not held" });
                (held || self.q(82)).then_some(vec![Place::Reg(r)])
            }
            (OpKind::Use, Con::Class(c)) => self.found_in_class(n, c, t).map(|p| vec![p]),
            (OpKind::UseG, Con::Class(c)) => self.found_group(n, c),
            _ => panic!("refused with 13"),
        }
    }

    fn found_in_class(&mut self, n: usize, class: u32, t: Place) -> Option<Place> {
        let class = &self.s.classes[class as usize];
        let place = |r: usize| Place::Reg(r as u32);
        let held: Vec<usize> = (0..self.s.regs.len())
            .filter(|&r| class.regs.contains(&(r as u32)) && self.rec.holds[n][r])
            .filter(|&r| !self.q(76) || !self.s.regs[r].memory)
            .filter(|&r| !self.q(72) || !self.meet(place(r), t))
            .collect();
        let home = self.home(n);
        let in_home = home.is_some_and(|h| self.rec.slot[h] == Some(n));
        let slot = match home {
            Some(h) if (class.slots || self.q(80)) && (in_home || self.q(81)) && !self.q(78) => {
                Some(Place::Slot(h as u32))
            }
            _ => None,
        };
        let reg = if self.q(77) { held.last() } else { held.first() };
        match reg {
            Some(&r) if self.s.regs[r].memory && held.iter().any(|&x| !self.s.regs[x].memory) => {
                self.saw("use c: a memory register before a plain one")
            }
            Some(_) if held.len() > 1 => self.saw("use c: the lowest of several registers"),
            Some(_) => self.saw("use c: one register"),
            None if !class.slots => self.saw("use c: no register, no slots flag"),
            None if home.is_none() => self.saw("use c: no register, no home slot"),
            None if in_home => self.saw("use c: the home slot"),
            None => self.saw("use c: no register, not in the home slot"),
        }
        let reg = reg.map(|&r| place(r));
        if self.q(79) { slot.or(reg) } else { reg.or(slot) }
    }

    /// The group of the class that begins at the lowest register and holds the values.
    fn found_group(&mut self, vgroup: usize, class: u32) -> Option<Vec<Place>> {
        let s = self.s;
        let values = &s.vgroups[vgroup];
        let begins: Vec<usize> =
            (0..s.regs.len()).filter(|&r| self.rec.holds[values[0] as usize][r]).collect();
        if begins.is_empty() {
            self.saw("useg: first value in no register");
        }
        let mut fit = vec![];
        for r in begins {
            let of = |g: &&Group| g.class == class && g.regs[0] as usize == r;
            let Some(group) = s.groups.iter().find(of) else {
                self.saw("useg: a register that begins no group");
                continue;
            };
            let holds = |(&v, &x): (&u32, &u32)| self.rec.holds[v as usize][x as usize];
            let all = values.iter().zip(&group.regs).all(holds);
            if !all {
                self.saw("useg: a later value not held");
            }
            let equal = values.len() == group.regs.len();
            if (all || self.q(88)) && (equal || !self.q(87)) {
                fit.push(group);
            }
        }
        if fit.len() > 1 {
            self.saw("useg: the lowest of several groups");
        }
        let group = if self.q(89) { fit.last() } else { fit.first() }?;
        self.saw(match values.len().cmp(&group.regs.len()) {
            std::cmp::Ordering::Less => "useg: found, the register group longer",
            std::cmp::Ordering::Equal => "useg: found, of equal length",
            std::cmp::Ordering::Greater => "useg: found, the value group longer",
        });
        Some(group.regs.iter().map(|&r| Place::Reg(r)).collect())
    }

    /// Does an input that covers these places meet the destination?
    fn meets(&mut self, covered: &[Place], t: Place, input: &Rin, reused: bool) -> bool {
        let at = covered.iter().position(|&p| self.meet(p, t));
        match at {
            _ if reused => {}
            None => self.saw("apart from the destination"),
            Some(_) if input.kind == OpKind::Fixed => self.saw("fixed: meets the destination"),
            Some(0) if covered[0] == t => match t {
                Place::Slot(_) => self.saw("the destination's slot itself"),
                Place::Reg(_) => self.saw("the destination's register itself"),
            },
            Some(0) => self.saw("a register that shares a unit with the destination"),
            Some(_) => self.saw("useg: a later register meets the destination"),
        }
        at.is_some() && !(self.q(86) && at != Some(0))
    }

    fn meet(&self, a: Place, b: Place) -> bool {
        match (a, b) {
            (Place::Reg(a), Place::Reg(b)) if !self.q(85) => {
                let others = self.units(b as usize);
                self.units(a as usize).iter().any(|u| others.contains(u))
            }
            _ => a == b,
        }
    }

    /// All pairs known now.
    fn known(&self) -> Vec<Pair> {
        let mut all = vec![];
        for (value, regs) in self.rec.holds.iter().enumerate() {
            for (reg, &h) in regs.iter().enumerate() {
                if h {
                    all.push(Pair::Reg { value, reg });
                }
            }
        }
        for (slot, v) in self.rec.slot.iter().enumerate() {
            if let Some(value) = *v {
                all.push(Pair::Slot { slot, value });
            }
        }
        all
    }

    /// Hands the present record to the successors; true where they must wait.
    fn hand_over(&mut self, block: usize, entry: &mut [Option<Vec<Pair>>]) -> Vec<usize> {
        let succs: Vec<usize> = self.succs[block].iter().map(|&s| s as usize).collect();
        let known = self.known();
        let mut wait = vec![];
        for &s in &succs {
            match &mut entry[s] {
                None => {
                    let pairs = known
                        .iter()
                        .copied()
                        .filter(|p| {
                            let v = match *p {
                                Pair::Reg { value, .. } | Pair::Slot { value, .. } => value,
                            };
                            if self.q(61) && matches!(p, Pair::Slot { .. })
                                || self.q(62) && matches!(p, Pair::Reg { .. })
                            {
                                return false;
                            }
                            if self.q(28) {
                                return true;
                            }
                            (succs.len() != 1 && !self.q(29))
                                || match self.rec.def_block[v] {
                                    Some(b) => b < s || (self.q(30) && b == s),
                                    None => self.q(31),
                                }
                        })
                        .collect();
                    entry[s] = Some(pairs);
                    wait.push(s);
                }
                Some(pairs) => {
                    let before = pairs.len();
                    if !self.q(32) {
                        pairs.retain(|p| known.contains(p));
                    }
                    if self.q(68) {
                        for &p in &known {
                            if !pairs.contains(&p) {
                                pairs.push(p);
                            }
                        }
                    }
                    if pairs.len() != before && !self.q(33) {
                        wait.push(s);
                    }
                }
            }
        }
        wait
    }

    fn forward_entries(&self) -> Vec<Option<Vec<Pair>>> {
        (0..self.s.blocks.len())
            .map(|b| {
                let back =
                    self.preds[b].len() > 1 && self.preds[b].iter().any(|&p| p as usize >= b);
                let join = self.preds[b].len() > 1;
                let empty = match self.quirk {
                    34 => self.preds[b].iter().all(|&p| p as usize >= b),
                    35 => join,
                    _ => back,
                };
                (self.s.blocks[b].entry || empty).then(Vec::new)
            })
            .collect()
    }

    fn global_entries(&mut self) -> Vec<Option<Vec<Pair>>> {
        let n = self.s.blocks.len();
        let mut entry: Vec<Option<Vec<Pair>>> = vec![None; n];
        let mut waiting = vec![false; n];
        for b in 0..n {
            if self.s.blocks[b].entry {
                entry[b] = Some(vec![]);
                waiting[b] = true;
            }
        }
        loop {
            let next = if self.q(27) {
                waiting.iter().rposition(|&w| w)
            } else {
                waiting.iter().position(|&w| w)
            };
            let Some(b) = next else { break };
            if self.quirk > 0 && self.counts[PRE] > 3000 {
                // A mistake may never settle.
                break;
            }
            waiting[b] = false;
            if self.succs[b].is_empty() {
                self.counts[PRE] += self.q(26) as u32;
                continue;
            }
            self.counts[PRE] += 1;
            let handed = entry[b].clone().unwrap();
            self.prepare(b, &handed);
            for s in self.hand_over(b, &mut entry) {
                waiting[s] = true;
            }
        }
        entry
    }

    fn level(&mut self, level: u32) {
        if level == 0 {
            return;
        }
        let n = self.s.blocks.len();
        let guard = self.quirk;
        let mut entry = match level {
            2 => self.forward_entries(),
            3 => self.global_entries(),
            _ => vec![Some(vec![]); n],
        };
        if guard == 1 {
            self.rec.spilled.fill(None);
        }
        for b in 0..n {
            let handed = match entry[b].clone() {
                None if self.quirk > 0 => vec![],
                h => h.unwrap(),
            };
            self.optimise(b, &handed);
            if level == 2 {
                self.hand_over(b, &mut entry);
            }
        }
    }

    /// The sweep over one block from what is wanted at its end; edits are struck
    /// where asked. Gives what is wanted at its start.
    fn sweep_block(&mut self, block: usize, out: &[bool], strike: bool) -> Vec<bool> {
        let mut want = out.to_vec();
        for inst in (self.starts[block]..self.starts[block + 1]).rev() {
            let ops = self.ops_of(inst);
            for step in 0..2 {
                let defs = (step == 0) != self.q(46);
                for &at in &ops {
                    let place = if self.q(52) { self.s.ops[at].place } else { self.places[at] };
                    let Place::Slot(s) = place else { continue };
                    match self.s.ops[at].kind {
                        OpKind::Early if self.q(47) => {}
                        OpKind::Def | OpKind::Early if defs => want[s as usize] = false,
                        OpKind::Use if !defs => want[s as usize] = true,
                        _ => {}
                    }
                }
            }
            for e in self.edits_of(inst).into_iter().rev() {
                match self.edits[e].1 {
                    Edit::Move { to: Place::Slot(s), .. }
                    | Edit::Remat { to: Place::Slot(s), .. }
                    | Edit::Irem { to: Place::Slot(s), .. }
                        if !want[s as usize]
                            && !(self.q(71) && matches!(self.edits[e].1, Edit::Remat { .. }))
                            && !(self.q(107) && matches!(self.edits[e].1, Edit::Irem { .. })) =>
                    {
                        if let (true, Edit::Irem { inputs, .. }) = (self.q(102), self.edits[e].1) {
                            add(&mut want, &inputs);
                        }
                        if let (true, Edit::Move { from: Place::Slot(x), .. }) =
                            (self.q(3), self.edits[e].1)
                        {
                            want[x as usize] = true;
                        }
                        if strike {
                            let is_move = match self.edits[e].1 {
                                Edit::Irem { .. } => self.q(106),
                                e => matches!(e, Edit::Move { .. }),
                            };
                            self.counts[if is_move { DEAD_SPILL } else { DEAD_REMAT }] += 1;
                            self.edits[e].1 = Edit::None;
                        }
                    }
                    Edit::Move { to, from, .. } => {
                        if let Place::Slot(s) = to {
                            want[s as usize] = false;
                        }
                        if let Place::Slot(s) = from {
                            want[s as usize] = !(self.q(51) && to == from);
                        }
                    }
                    Edit::Remat { to, .. } => {
                        if let (Place::Slot(s), false) = (to, self.q(50)) {
                            want[s as usize] = false;
                        }
                    }
                    Edit::Irem { to, inputs, .. } => {
                        if let Place::Slot(s) = to {
                            want[s as usize] = false;
                        }
                        match self.quirk {
                            103 => {}
                            104 => add(&mut want, &inputs[..inputs.len().min(1)]),
                            105 => {
                                let others: Vec<Place> =
                                    inputs.iter().copied().filter(|&p| p != to).collect();
                                add(&mut want, &others);
                            }
                            _ => add(&mut want, &inputs),
                        }
                        if let (true, Edit::Move { from, .. }) = (self.q(108), self.s.edits[e].1) {
                            add(&mut want, &[from]);
                        }
                    }
                    Edit::Espill { to: Place::Slot(s), .. } => {
                        if self.q(53) && !want[s as usize] && strike {
                            self.edits[e].1 = Edit::None;
                        }
                        if !self.q(49) {
                            want[s as usize] = false;
                        }
                    }
                    Edit::Ereload { from: Place::Slot(s), .. } => {
                        if !self.q(48) {
                            want[s as usize] = true;
                        }
                    }
                    Edit::None => {}
                    _ => panic!(),
                }
            }
        }
        want
    }

    fn sweep(&mut self) {
        let n = self.s.blocks.len();
        let slots = self.s.slots as usize;
        let mut out = vec![vec![false; slots]; n];
        loop {
            let mut changed = false;
            for b in 0..n {
                let start = self.sweep_block(b, &out[b].clone(), false);
                for p in self.preds[b].clone() {
                    for s in 0..slots {
                        if start[s] && !out[p as usize][s] {
                            out[p as usize][s] = true;
                            changed = true;
                        }
                    }
                }
            }
            if !changed || self.q(54) {
                break;
            }
        }
        for b in 0..n {
            self.sweep_block(b, &out[b].clone(), true);
        }
    }
}

/// The slots among these places are wanted.
fn add(want: &mut [bool], places: &[Place]) {
    for p in places {
        if let Place::Slot(s) = *p {
            want[s as usize] = true;
        }
    }
}

pub fn run_rules(s: &Sheet, level: u32, sweep: u32) -> Outcome {
    run_quirk(s, level, sweep, 0)
}

pub fn run_quirk(s: &Sheet, level: u32, sweep: u32, quirk: u32) -> Outcome {
    run(s, level, sweep, quirk).0
}

/// Which of `BRANCHES` come up at this level.
pub fn branches(s: &Sheet, level: u32) -> BTreeSet<&'static str> {
    run(s, level, 0, 0).1
}

fn run(s: &Sheet, level: u32, sweep: u32, quirk: u32) -> (Outcome, BTreeSet<&'static str>) {
    let mut starts = vec![0];
    for b in &s.blocks {
        starts.push(starts.last().unwrap() + b.insts);
    }
    let mut rules = Rules {
        s,
        rec: Record {
            holds: vec![vec![false; s.regs.len()]; s.homes.len()],
            last: vec![None; 128],
            slot: vec![None; s.slots as usize],
            def_block: vec![None; s.homes.len()],
            spilled: vec![None; s.homes.len()],
            notes: vec![],
            defined: vec![false; 128],
        },
        edits: s.edits.clone(),
        places: s.ops.iter().map(|o| o.place).collect(),
        counts: [0; 10],
        succs: s.neighbours(&s.succs),
        preds: s.neighbours(&s.preds),
        starts,
        quirk,
        seen: BTreeSet::new(),
    };
    rules.level(level);
    if sweep == 1 {
        rules.sweep();
    }
    let mut folds = vec![];
    let mut idx = 0;
    for at in 0..s.ops.len() {
        idx = if at > 0 && s.ops[at - 1].inst == s.ops[at].inst { idx + 1 } else { 0 };
        if rules.places[at] != s.ops[at].place {
            folds.push((s.ops[at].inst, idx, rules.places[at]));
        }
    }
    (Outcome { folds, edits: rules.edits, counts: rules.counts }, rules.seen)
}
