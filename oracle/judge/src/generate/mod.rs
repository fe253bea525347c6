//! Random sheets, nearly all accepted: the machine and its values. Blocks are left to
//! graph.rs, what stands in them to body.rs, recipes to recipes.rs, damage to mutate.rs.

mod body;
mod graph;
mod recipes;

use crate::requests;
use crate::rng::Rng;
use crate::sheet::*;

/// Upper bounds for one sheet.
#[derive(Clone, Copy)]
struct Shape {
    slots: (usize, usize),
    regs: (usize, usize),
    classes: (usize, usize),
    groups: (usize, usize),
    values: (usize, usize),
    vgroups: (usize, usize),
    blocks: (usize, usize),
    per_block: (usize, usize),
    ops: usize,
    edits: usize,
}

/// Places in `SHAPES` that get more than their bounds.
const LARGE: usize = 3;
const AT_LIMITS: usize = 4;

const SHAPES: [Shape; 5] = [
    // tiny
    Shape {
        slots: (0, 2),
        regs: (1, 3),
        classes: (1, 2),
        groups: (0, 2),
        values: (1, 3),
        vgroups: (0, 2),
        blocks: (1, 3),
        per_block: (1, 3),
        ops: 8,
        edits: 10,
    },
    // small
    Shape {
        slots: (1, 6),
        regs: (2, 8),
        classes: (1, 4),
        groups: (0, 4),
        values: (2, 8),
        vgroups: (0, 3),
        blocks: (1, 7),
        per_block: (1, 5),
        ops: 40,
        edits: 60,
    },
    // medium
    Shape {
        slots: (2, 20),
        regs: (4, 32),
        classes: (2, 8),
        groups: (0, 12),
        values: (5, 40),
        vgroups: (0, 8),
        blocks: (3, 20),
        per_block: (1, 8),
        ops: 250,
        edits: 250,
    },
    // large
    Shape {
        slots: (8, 64),
        regs: (12, 128),
        classes: (3, 16),
        groups: (2, 32),
        values: (20, 256),
        vgroups: (2, 32),
        blocks: (8, 64),
        per_block: (1, 20),
        ops: 1200,
        edits: 900,
    },
    // at the limits
    Shape {
        slots: (64, 64),
        regs: (128, 128),
        classes: (16, 16),
        groups: (32, 32),
        values: (256, 256),
        vgroups: (32, 32),
        blocks: (64, 64),
        per_block: (8, 8),
        ops: 2048,
        edits: 1024,
    },
];

pub struct Gen<'a> {
    pub rng: &'a mut Rng,
    /// Also make group operands outside their class's list (refused with 5), and
    /// blocks that name a value twice among their parameters.
    pub odd: bool,
}

impl Gen<'_> {
    fn between(&mut self, (a, b): (usize, usize)) -> usize {
        self.rng.range(a, b)
    }

    pub fn sheet(&mut self) -> Sheet {
        let which = self.rng.weighted(&[28, 36, 25, 9, 2]);
        self.sheet_of(which)
    }

    pub fn sheet_of(&mut self, which: usize) -> Sheet {
        let mut shape = SHAPES[which];
        // 65,536 bytes cannot hold both most operands and most edits.
        let full_ops = self.rng.pct(50);
        if which == AT_LIMITS {
            if full_ops {
                shape.edits = 350;
            } else {
                shape.ops = 1100;
            }
        }
        loop {
            let s = self.try_sheet(&shape, which);
            if s.print().len() <= MAX_SHEET {
                return s;
            }
            if which != AT_LIMITS || !full_ops {
                shape.ops = shape.ops * 9 / 10;
            }
            if which != AT_LIMITS || full_ops {
                shape.edits = shape.edits * 8 / 10;
            }
        }
    }

    fn try_sheet(&mut self, shape: &Shape, which: usize) -> Sheet {
        let mut s = Sheet { slots: self.between(shape.slots) as u32, ..Sheet::default() };
        self.regs(&mut s, shape);
        self.classes(&mut s, shape);
        self.groups(&mut s, shape);
        self.values(&mut s, shape);
        self.vgroups(&mut s, shape);
        self.blocks(&mut s, shape, which);
        self.body(&mut s, shape, which);
        if requests::recipes() {
            self.request_2(&mut s, shape);
        }
        s
    }

    fn regs(&mut self, s: &mut Sheet, shape: &Shape) {
        let n = self.between(shape.regs);
        // Unit numbers in a random order, now and then with gaps.
        let mut units: Vec<u32> = (0..128).collect();
        if self.rng.pct(40) {
            self.rng.shuffle(&mut units);
        }
        let layout = self.rng.below(6);
        // Layout 5: disjoint registers, some of them wide, while units last.
        let mut free = 0;
        let pool = match layout {
            0 | 1 => n,
            2 => (n * 2 / 3).max(1),
            3 => (n / 2).max(1),
            _ => n.min(128),
        }
        .min(128);
        for r in 0..n {
            let mut l = match layout {
                // One unit each.
                0 | 1 => vec![units[r]],
                // Singles, then pairs over them.
                2 => {
                    if r < pool {
                        vec![units[r]]
                    } else {
                        let k = (r - pool) * 2 % pool;
                        let mut l = vec![units[k]];
                        if pool > 1 {
                            l.push(units[(k + 1) % pool]);
                        }
                        l
                    }
                }
                // Random sets out of a small pool: much overlap.
                3 => {
                    let k = self.rng.range(1, 3.min(pool));
                    let mut p = units[..pool].to_vec();
                    self.rng.shuffle(&mut p);
                    p.truncate(k);
                    p
                }
                5 => {
                    let k = self.rng.range(1, 3).min(128 - free - (n - r - 1));
                    free += k;
                    units[free - k..free].to_vec()
                }
                // Mostly single, some wide.
                _ => {
                    if self.rng.pct(75) {
                        vec![units[r]]
                    } else {
                        let k = self.rng.range(2, 8.min(pool.max(2)));
                        let mut p = units[..pool.max(2)].to_vec();
                        self.rng.shuffle(&mut p);
                        p.truncate(k);
                        p
                    }
                }
            };
            if r == 0 && layout != 5 && self.rng.pct(1) {
                // A register of very many units.
                l = units[..pool].to_vec();
            }
            if self.rng.pct(50) {
                self.rng.shuffle(&mut l);
            }
            s.regs.push(Reg { memory: false, units: l });
        }
        let memory = self.rng.pick(&[0, 0, 10, 25, 60]);
        for r in 0..n {
            s.regs[r].memory = self.rng.pct(memory);
        }
    }

    fn classes(&mut self, s: &mut Sheet, shape: &Shape) {
        let n = self.between(shape.classes);
        let all: Vec<u32> = (0..s.regs.len() as u32).collect();
        for c in 0..n {
            let keep = if c == 0 { 95 } else { self.rng.pick(&[20, 50, 80, 100]) };
            let mut regs: Vec<u32> = all.iter().copied().filter(|_| self.rng.pct(keep)).collect();
            if c > 0 && self.rng.pct(8) {
                regs.clear();
            }
            // Long lists in every class would fill the sheet.
            if c > 2 && regs.len() > 24 {
                self.rng.shuffle(&mut regs);
                regs.truncate(24);
            }
            if self.rng.pct(40) {
                self.rng.shuffle(&mut regs);
            }
            let slots = if c == 0 { self.rng.pct(92) } else { self.rng.pct(55) };
            s.classes.push(Class { slots, regs });
        }
    }

    fn groups(&mut self, s: &mut Sheet, shape: &Shape) {
        let n = self.between(shape.groups);
        let mut tries = 0;
        while s.groups.len() < n && tries < 400 {
            tries += 1;
            let class = self.rng.below(s.classes.len()) as u32;
            let members = &s.classes[class as usize].regs;
            let first = if members.is_empty() || (self.odd && self.rng.pct(30)) {
                self.rng.below(s.regs.len()) as u32
            } else {
                members[self.rng.below(members.len())]
            };
            if s.groups.iter().any(|g| g.class == class && g.regs[0] == first) {
                continue;
            }
            let most = self.rng.pick(&[3, 3, 3, 3, 3, 3, 3, 3, 3, 3, 3, 3, 8, 8, 30]);
            let len = self.rng.range(1, most.min(s.regs.len()));
            let mut rest: Vec<u32> = (0..s.regs.len() as u32).filter(|&r| r != first).collect();
            self.rng.shuffle(&mut rest);
            let mut regs = vec![first];
            regs.extend(&rest[..len - 1]);
            s.groups.push(Group { class, regs });
        }
    }

    fn values(&mut self, s: &mut Sheet, shape: &Shape) {
        let n = self.between(shape.values);
        let slots = s.slots as usize;
        // Home slots come from the first `h` slots; the others serve emergency
        // pairs and moves to another slot.
        let h = match self.rng.below(4) {
            0 => slots,
            1 => slots.saturating_sub(1),
            2 => slots * 2 / 3,
            _ => slots.div_ceil(2),
        };
        let shared = self.rng.pct(50);
        for v in 0..n {
            let home = if h == 0 || self.rng.pct(12) {
                None
            } else if shared {
                Some(self.rng.below(h) as u32)
            } else {
                (v < h).then_some(v as u32)
            };
            s.homes.push(home);
        }
    }

    fn vgroups(&mut self, s: &mut Sheet, shape: &Shape) {
        let n = self.between(shape.vgroups);
        for _ in 0..n {
            let len = if s.groups.is_empty() || self.rng.pct(10) {
                self.rng.range(1, 3)
            } else {
                s.groups[self.rng.below(s.groups.len())].regs.len()
            };
            if len > s.homes.len() {
                continue;
            }
            let mut v: Vec<u32> = (0..s.homes.len() as u32).collect();
            self.rng.shuffle(&mut v);
            v.truncate(len);
            s.vgroups.push(v);
        }
    }
}
