//! The refusals 2 to 6 and 9 to 13 of a sheet whose rows are whole, with the row of the
//! block concerned. Each check may lean on the ones before it. why.rs writes the same
//! rules a second time.

use crate::sheet::*;

impl Sheet {
    /// 100 times the refusal's row plus its number, or `None` for an accepted sheet.
    pub fn refusal(&self) -> Option<u32> {
        if self.passes_limit() {
            Some(2)
        } else if self.names_wrong() {
            Some(3)
        } else if let Some(sum) = self.blocks_wrong() {
            Some(sum)
        } else if self.operands_wrong() {
            Some(5)
        } else if self.edits_wrong() {
            Some(6)
        } else if self.recipes.iter().any(recipe_wrong) {
            Some(13)
        } else {
            None
        }
    }
}

fn has_twice(l: &[u32]) -> bool {
    if l.len() < 10 {
        return (1..l.len()).any(|i| l[..i].contains(&l[i]));
    }
    let mut l = l.to_vec();
    l.sort_unstable();
    l.windows(2).any(|w| w[0] == w[1])
}

// ---- 2 -----------------------------------------------------------------------------

impl Sheet {
    fn passes_limit(&self) -> bool {
        let over = |l: &[u32]| l.iter().any(|&u| u > MAX_UNIT);
        self.slots as usize > MAX_SLOTS
            || self.regs.len() > MAX_REGS
            || self.classes.len() > MAX_CLASSES
            || self.groups.len() > MAX_GROUPS
            || self.homes.len() > MAX_VALUES
            || self.vgroups.len() > MAX_VGROUPS
            || self.blocks.len() > MAX_BLOCKS
            || self.num_insts() > MAX_INSTS
            || self.ops.len() > MAX_OPS
            || self.edits.len() > MAX_EDITS
            || self.regs.iter().any(|r| over(&r.units))
            || self.clobs.iter().any(|c| over(&c.1))
            || self.ops.iter().any(|o| reuse_over(o.con))
            || self
                .recipes
                .iter()
                .any(|r| reuse_over(r.con) || r.inputs.iter().any(|i| reuse_over(i.con)))
    }
}

fn reuse_over(con: Con) -> bool {
    matches!(con, Con::Reuse(i) if i > MAX_REUSE)
}

// ---- 3 -----------------------------------------------------------------------------

impl Sheet {
    fn has_reg(&self, x: u32) -> bool {
        (x as usize) < self.regs.len()
    }
    fn has_value(&self, x: u32) -> bool {
        (x as usize) < self.homes.len()
    }
    fn has_class(&self, x: u32) -> bool {
        (x as usize) < self.classes.len()
    }
    fn has_block(&self, x: u32) -> bool {
        (x as usize) < self.blocks.len()
    }
    fn has_place(&self, p: Place) -> bool {
        match p {
            Place::Reg(x) => self.has_reg(x),
            Place::Slot(x) => x < self.slots,
        }
    }

    fn has_subject(&self, kind: OpKind, x: u32) -> bool {
        match kind {
            OpKind::Def | OpKind::Use | OpKind::Early => self.has_value(x),
            OpKind::DefG | OpKind::UseG | OpKind::EarlyG => (x as usize) < self.vgroups.len(),
            OpKind::Fixed => true,
        }
    }
    fn has_constraint(&self, con: Con) -> bool {
        match con {
            Con::Class(c) => self.has_class(c),
            Con::Fixed(x) => self.has_reg(x),
            Con::Reuse(_) => true,
        }
    }

    fn names_wrong(&self) -> bool {
        self.machine_names_wrong() || self.block_names_wrong() || self.body_names_wrong()
    }

    fn machine_names_wrong(&self) -> bool {
        let regs_wrong = |l: &[u32]| l.iter().any(|&x| !self.has_reg(x)) || has_twice(l);
        self.regs.iter().any(|r| has_twice(&r.units))
            || self.classes.iter().any(|c| regs_wrong(&c.regs))
            || self.groups.iter().any(|g| !self.has_class(g.class) || regs_wrong(&g.regs))
            || self.groups_share_a_start()
            || self.homes.iter().any(|h| h.is_some_and(|s| s >= self.slots))
            || self.vgroups.iter().any(|g| g.iter().any(|&v| !self.has_value(v)) || has_twice(g))
            || self.recipes.iter().any(|r| self.recipe_names_wrong(r))
    }

    fn recipe_names_wrong(&self, r: &Recipe) -> bool {
        !self.has_value(r.value)
            || !self.has_constraint(r.con)
            || r.inputs
                .iter()
                .any(|i| !self.has_subject(i.kind, i.subject) || !self.has_constraint(i.con))
    }

    fn groups_share_a_start(&self) -> bool {
        let start = |g: &Group| (g.class, g.regs[0]);
        let all = &self.groups;
        (0..all.len()).any(|j| all[..j].iter().any(|g| start(g) == start(&all[j])))
    }

    fn block_names_wrong(&self) -> bool {
        let list_wrong = |(b, l): &(u32, Vec<u32>)| {
            !self.has_block(*b) || l.iter().any(|&x| !self.has_block(x)) || has_twice(l)
        };
        self.blocks.iter().any(|b| b.idom.is_some_and(|d| !self.has_block(d)))
            || self.succs.iter().any(list_wrong)
            || self.preds.iter().any(list_wrong)
    }

    fn body_names_wrong(&self) -> bool {
        let insts = self.num_insts();
        let has_inst = |x: u32| (x as usize) < insts;
        let units = self.regs.iter().flat_map(|r| &r.units).fold(0u128, |set, &u| set | 1 << u);
        self.params.iter().any(|p| {
            !self.has_block(p.block) || !self.has_value(p.value) || !self.has_place(p.place)
        }) || self.ops.iter().any(|o| !has_inst(o.inst) || self.op_names_wrong(o))
            || self.clobs.iter().any(|(i, l)| {
                !has_inst(*i) || l.iter().any(|&u| units >> u & 1 == 0) || has_twice(l)
            })
            || self.edits.iter().any(|&(i, e)| !has_inst(i) || self.edit_names_wrong(e))
    }

    fn op_names_wrong(&self, o: &Op) -> bool {
        !self.has_subject(o.kind, o.subject)
            || !self.has_constraint(o.con)
            || !self.has_place(o.place)
    }

    fn edit_names_wrong(&self, e: Edit) -> bool {
        match e {
            Edit::Move { to, from, value } => {
                !self.has_place(to) || !self.has_place(from) || !self.has_value(value)
            }
            Edit::Remat { to, value } => !self.has_place(to) || !self.has_value(value),
            Edit::Irem { to, value, inputs } => {
                !self.has_place(to)
                    || !self.has_value(value)
                    || inputs.iter().any(|&p| !self.has_place(p))
            }
            Edit::Espill { to, from } | Edit::Ereload { to, from } => {
                !self.has_place(to) || !self.has_place(from)
            }
            Edit::None => false,
        }
    }
}

// ---- 4, 9, 10, 11, 12 --------------------------------------------------------------

/// Sets of blocks are words: there are at most 64.
type Blocks = [u64; MAX_BLOCKS];

/// The lists of each block, and the blocks in whose lists it stands.
fn lists(rows: &[(u32, Vec<u32>)]) -> (Blocks, Blocks) {
    let (mut own, mut others): (Blocks, Blocks) = ([0; MAX_BLOCKS], [0; MAX_BLOCKS]);
    for (b, l) in rows {
        for &x in l {
            own[*b as usize] |= 1 << x;
            others[x as usize] |= 1 << b;
        }
    }
    (own, others)
}

impl Sheet {
    /// The rules in their order, each over all blocks before the next.
    fn blocks_wrong(&self) -> Option<u32> {
        if !self.blocks.iter().any(|b| b.entry) {
            return Some(4);
        }
        let (succs, succ_of) = lists(&self.succs);
        let (preds, pred_of) = lists(&self.preds);
        let mut joins = 0u64;
        for (b, &p) in preds.iter().enumerate() {
            joins |= ((p.count_ones() > 1) as u64) << b;
        }
        let reached = self.reached(&succs);
        let wrong = |number: u32, b: usize| match number {
            4 => self.blocks[b].insts == 0,
            9 => succs[b] & !pred_of[b] != 0 || preds[b] & !succ_of[b] != 0,
            10 => {
                (self.blocks[b].entry && preds[b] != 0)
                    || (succs[b].count_ones() > 1 && succs[b] & joins != 0)
            }
            11 => {
                (preds[b].count_ones() == 1 && preds[b].trailing_zeros() as usize >= b)
                    || self.blocks[b].idom.is_some_and(|d| d as usize >= b)
            }
            _ => reached >> b & 1 == 0,
        };
        [4, 9, 10, 11, 12].into_iter().find_map(|number| {
            let b = (0..self.blocks.len()).find(|&b| wrong(number, b))?;
            Some(100 * self.block_row(b) + number)
        })
    }

    /// The row of a block, counted from 1: `slots`, the rows of the machine and of the
    /// values, and the blocks before it stand above.
    fn block_row(&self, b: usize) -> u32 {
        let machine = self.regs.len() + self.classes.len() + self.groups.len();
        let recipes: usize = self.recipes.iter().map(|r| 1 + r.inputs.len()).sum();
        (1 + machine + self.homes.len() + self.vgroups.len() + recipes + b + 1) as u32
    }

    fn reached(&self, succs: &Blocks) -> u64 {
        let mut reached = 0u64;
        let mut work = 0u64;
        for (b, block) in self.blocks.iter().enumerate() {
            work |= (block.entry as u64) << b;
        }
        while work != 0 {
            let b = work.trailing_zeros() as usize;
            work &= work - 1;
            reached |= 1 << b;
            work |= succs[b] & !reached;
        }
        reached
    }
}

// ---- 5 -----------------------------------------------------------------------------

impl Sheet {
    fn operands_wrong(&self) -> bool {
        // At most 128 registers.
        let members: Vec<u128> = self
            .classes
            .iter()
            .map(|c| c.regs.iter().fold(0u128, |set, &x| set | 1 << x))
            .collect();
        self.ops
            .chunk_by(|a, b| a.inst == b.inst)
            .any(|ops| ops.iter().any(|o| self.operand_wrong(&members, ops, o)))
    }

    fn operand_wrong(&self, members: &[u128], ops: &[Op], o: &Op) -> bool {
        let class = match o.con {
            Con::Class(c) if self.in_class(members, c, o.place) => Some(c),
            Con::Fixed(x) if o.place == Place::Reg(x) => None,
            Con::Reuse(i) => match reused_class(ops, o, i) {
                None => return true,
                c => c,
            },
            _ => return true,
        };
        (o.kind == OpKind::Fixed && !matches!(o.con, Con::Fixed(_)))
            || (o.kind.is_group() && self.group_wrong(o, class))
    }

    fn in_class(&self, members: &[u128], class: u32, place: Place) -> bool {
        match place {
            Place::Reg(x) => members[class as usize] >> x & 1 == 1,
            Place::Slot(_) => self.classes[class as usize].slots,
        }
    }

    /// `class`: where the operand's register group is looked up; none for `f`.
    fn group_wrong(&self, o: &Op, class: Option<u32>) -> bool {
        let (Place::Reg(first), Some(class)) = (o.place, class) else {
            return true;
        };
        let len = self.vgroups[o.subject as usize].len();
        !self.groups.iter().any(|g| g.class == class && g.regs[0] == first && g.regs.len() == len)
    }
}

/// The class of the operand that `o` reuses, if it may reuse it.
fn reused_class(ops: &[Op], o: &Op, index: u32) -> Option<u32> {
    let wanted = match o.kind {
        OpKind::Def => OpKind::Use,
        OpKind::DefG => OpKind::UseG,
        _ => return None,
    };
    let used = ops.get(index as usize)?;
    match used.con {
        Con::Class(c) if used.kind == wanted && used.place == o.place => Some(c),
        _ => None,
    }
}

// ---- 6 -----------------------------------------------------------------------------

impl Sheet {
    fn edits_wrong(&self) -> bool {
        self.edits.windows(2).any(|w| w[0].0 > w[1].0) || self.emergency_wrong()
    }

    fn emergency_wrong(&self) -> bool {
        let block_of = self.inst_blocks();
        // The open pair: its block, slot and register.
        let mut open: Option<(u32, u32, u32)> = None;
        for &(inst, edit) in &self.edits {
            let (slot, reg, spill) = match edit {
                Edit::Espill { to: Place::Slot(s), from: Place::Reg(x) } => (s, x, true),
                Edit::Ereload { to: Place::Reg(x), from: Place::Slot(s) } => (s, x, false),
                Edit::Espill { .. } | Edit::Ereload { .. } => return true,
                _ => continue,
            };
            let pair = Some((block_of[inst as usize], slot, reg));
            let before = if spill { None } else { pair };
            if self.homes.contains(&Some(slot)) || self.shares_a_unit(reg) || open != before {
                return true;
            }
            open = if spill { pair } else { None };
        }
        open.is_some()
    }

    fn shares_a_unit(&self, reg: u32) -> bool {
        let units = &self.regs[reg as usize].units;
        self.regs
            .iter()
            .enumerate()
            .any(|(x, r)| x != reg as usize && r.units.iter().any(|u| units.contains(u)))
    }
}

// ---- 13 ----------------------------------------------------------------------------

fn recipe_wrong(r: &Recipe) -> bool {
    r.inputs.iter().enumerate().any(|(at, i)| {
        let reused = r.con == Con::Reuse(at as u32);
        match (i.kind, i.con) {
            (_, Con::Reuse(_)) => true,
            (OpKind::Use, _) => false,
            (OpKind::UseG, Con::Class(_)) | (OpKind::Fixed, Con::Fixed(_)) => reused,
            _ => true,
        }
    })
}
