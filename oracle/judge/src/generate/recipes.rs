//! Request 2 in a random sheet: recipes for values that its edits load, `irem` edits, and
//! edits that bring a recipe's inputs to where they can be found.

use super::{Gen, Shape};
use crate::sheet::*;

/// What stood where shortly before an edit, as far as its block's rows tell.
#[derive(Default)]
struct Near {
    pairs: Vec<(u32, Place)>,
    /// Value group, class.
    groups: Vec<(u32, u32)>,
}

/// A recipe's most inputs; seldom more than a few.
const MOST_INPUTS: usize = 12;

impl Gen<'_> {
    /// To a sheet with everything else in place.
    pub(super) fn request_2(&mut self, s: &mut Sheet, shape: &Shape) {
        if self.rng.pct(8) {
            return;
        }
        let irems = self.rng.pick(&[0, 10, 40]);
        self.irems(s, irems);
        let most = self.rng.pick(&[1, 2, 4, 8, 30]);
        let brought = self.rng.pick(&[0, 40, 80]);
        // Loads, the last first: what is put in before one moves none still to come.
        let mut loads: Vec<usize> = (0..s.edits.len()).filter(|&k| is_load(s, k)).collect();
        self.rng.shuffle(&mut loads);
        loads.truncate(2 * most);
        loads.sort_by(|a, b| b.cmp(a));
        for k in loads {
            let Edit::Move { to, value, .. } = s.edits[k].1 else { unreachable!() };
            if s.recipe(value).is_none() && s.recipes.len() < most {
                let recipe = self.recipe(s, k, to, value);
                s.recipes.push(recipe);
            }
            let room = shape.edits.min(MAX_EDITS).saturating_sub(s.edits.len());
            if self.rng.pct(brought) {
                self.bring(s, k, room);
            }
        }
        // A value that is perhaps never loaded.
        if self.rng.pct(30) {
            let value = self.rng.below(s.homes.len()) as u32;
            let to = self.any_place(s);
            if s.recipe(value).is_none() {
                let recipe = self.recipe(s, s.edits.len(), to, value);
                s.recipes.push(recipe);
            }
        }
        s.recipes.sort_by_key(|r| r.value);
    }

    fn any_place(&mut self, s: &Sheet) -> Place {
        if s.slots > 0 && self.rng.pct(40) {
            Place::Slot(self.rng.below(s.slots as usize) as u32)
        } else {
            Place::Reg(self.rng.below(s.regs.len()) as u32)
        }
    }

    // ---- given edits -------------------------------------------------------------

    /// So many in a hundred of the remats become `irem`s, and some of the moves.
    fn irems(&mut self, s: &mut Sheet, pct: usize) {
        for k in 0..s.edits.len() {
            let (to, value, pct) = match s.edits[k].1 {
                Edit::Remat { to, value } => (to, value, pct),
                Edit::Move { to, value, .. } => (to, value, pct / 5),
                _ => continue,
            };
            if !self.rng.pct(pct) {
                continue;
            }
            let many = if self.rng.pct(3) { MOST_INPUTS } else { 3 };
            let mut inputs = vec![];
            for _ in 0..self.rng.range(0, many) {
                inputs.push(match self.rng.below(6) {
                    0 => to,
                    1 if !inputs.is_empty() => inputs[0],
                    _ => self.any_place(s),
                });
            }
            s.edits[k].1 = Edit::Irem { to, value, inputs: Inputs::new(&inputs) };
        }
    }

    // ---- recipes -----------------------------------------------------------------

    /// A recipe of a value that edit `k` loads to a place.
    fn recipe(&mut self, s: &Sheet, k: usize, to: Place, value: u32) -> Recipe {
        let near = near(s, k);
        let few = self.rng.weighted(&[14, 40, 30, 12, 4]);
        let few = if few == 4 { self.rng.range(4, MOST_INPUTS) } else { few };
        let mut inputs: Vec<Rin> = vec![];
        for _ in 0..few {
            let input = match inputs.last() {
                Some(&last) if self.rng.pct(6) => last,
                _ => self.input(s, &near, to, value),
            };
            inputs.push(input);
        }
        let con = self.destination(s, &inputs, to);
        if let Con::Reuse(i) = con {
            // Mostly a value that stands in the destination.
            let here: Vec<u32> = near.pairs.iter().filter(|p| p.1 == to).map(|p| p.0).collect();
            if let (Some(input), true) = (inputs.get_mut(i as usize), self.rng.pct(70)) {
                if !here.is_empty() {
                    input.subject = self.rng.pick(&here);
                }
            }
        }
        Recipe { value, con, overlap: self.rng.pct(45), inputs }
    }

    fn destination(&mut self, s: &Sheet, inputs: &[Rin], to: Place) -> Con {
        let singles: Vec<u32> =
            (0..inputs.len() as u32).filter(|&i| inputs[i as usize].kind == OpKind::Use).collect();
        match self.rng.weighted(&[50, 22, 28]) {
            0 => Con::Class(self.class_for(s, to)),
            1 => match to {
                Place::Reg(r) if self.rng.pct(85) => Con::Fixed(r),
                _ => Con::Fixed(self.rng.below(s.regs.len()) as u32),
            },
            _ if singles.is_empty() || self.rng.pct(10) => {
                Con::Reuse((inputs.len() + self.rng.pick(&[0, 0, 1, 100])) as u32)
            }
            _ => Con::Reuse(self.rng.pick(&singles)),
        }
    }

    /// Mostly a class that has the place.
    fn class_for(&mut self, s: &Sheet, place: Place) -> u32 {
        let has = |c: &Class| match place {
            Place::Reg(r) => c.regs.contains(&r),
            Place::Slot(_) => c.slots,
        };
        let fit: Vec<usize> = (0..s.classes.len()).filter(|&c| has(&s.classes[c])).collect();
        let any = fit.is_empty() || self.rng.pct(12);
        (if any { self.rng.below(s.classes.len()) } else { self.rng.pick(&fit) }) as u32
    }

    fn input(&mut self, s: &Sheet, near: &Near, to: Place, value: u32) -> Rin {
        if self.rng.pct(12) {
            let r = match to {
                Place::Reg(r) if self.rng.pct(40) => r,
                _ => self.rng.below(s.regs.len()) as u32,
            };
            return Rin { kind: OpKind::Fixed, subject: 0, con: Con::Fixed(r) };
        }
        if !s.vgroups.is_empty() && self.rng.pct(25) {
            let (subject, class) = self.group_input(s, near);
            return Rin { kind: OpKind::UseG, subject, con: Con::Class(class) };
        }
        let (subject, at) = if !near.pairs.is_empty() && self.rng.pct(80) {
            self.rng.pick(&near.pairs)
        } else if self.rng.pct(20) {
            (value, to)
        } else {
            (self.rng.below(s.homes.len()) as u32, self.any_place(s))
        };
        let con = match at {
            Place::Reg(r) if self.rng.pct(25) => Con::Fixed(r),
            _ => Con::Class(self.class_for(s, at)),
        };
        Rin { kind: OpKind::Use, subject, con }
    }

    /// A value group and a class: near by, with a group of fitting length, or any.
    fn group_input(&mut self, s: &Sheet, near: &Near) -> (u32, u32) {
        if !near.groups.is_empty() && self.rng.pct(50) {
            return self.rng.pick(&near.groups);
        }
        let subject = self.rng.below(s.vgroups.len());
        let len = s.vgroups[subject].len();
        let fit: Vec<u32> =
            s.groups.iter().filter(|g| g.regs.len() == len).map(|g| g.class).collect();
        let class = if !fit.is_empty() && self.rng.pct(60) {
            self.rng.pick(&fit)
        } else if !s.groups.is_empty() && self.rng.pct(80) {
            s.groups[self.rng.below(s.groups.len())].class
        } else {
            self.rng.below(s.classes.len()) as u32
        };
        (subject as u32, class)
    }

    // ---- bringing ----------------------------------------------------------------

    /// Edits right before edit `k` that bring the inputs of its value, while there is room.
    fn bring(&mut self, s: &mut Sheet, k: usize, room: usize) {
        let (inst, Edit::Move { to, value, .. }) = s.edits[k] else { unreachable!() };
        let Some(recipe) = s.recipe(value).cloned() else { return };
        let mut brought: Vec<(u32, Place)> = vec![];
        for (at, input) in recipe.inputs.iter().enumerate() {
            if self.rng.pct(10) {
                continue;
            }
            if recipe.con == Con::Reuse(at as u32) {
                brought.push((input.subject, to));
                continue;
            }
            match (input.kind, input.con) {
                (OpKind::Use, Con::Fixed(r)) => brought.push((input.subject, Place::Reg(r))),
                (OpKind::Use, Con::Class(c)) => {
                    let at = self.place_in(s, c, input.subject);
                    brought.extend(at.map(|p| (input.subject, p)));
                }
                (OpKind::UseG, Con::Class(c)) => {
                    let of: Vec<usize> =
                        (0..s.groups.len()).filter(|&g| s.groups[g].class == c).collect();
                    if !of.is_empty() {
                        let group = &s.groups[self.rng.pick(&of)];
                        let values = &s.vgroups[input.subject as usize];
                        let both = values.iter().zip(&group.regs);
                        brought.extend(both.map(|(&v, &r)| (v, Place::Reg(r))));
                    }
                }
                _ => {}
            }
        }
        brought.truncate(room);
        // Mostly in this order, so that a later input may take an earlier one's place.
        if self.rng.pct(20) {
            self.rng.shuffle(&mut brought);
        }
        let edits: Vec<(u32, Edit)> = brought
            .into_iter()
            .map(|(value, to)| match self.rng.below(8) {
                0 => Edit::Irem { to, value, inputs: Inputs::new(&[to]) },
                1 | 2 => Edit::Move { to, from: Place::Reg(0), value },
                _ => Edit::Remat { to, value },
            })
            .map(|e| (inst, e))
            .collect();
        s.edits.splice(k..k, edits);
    }

    /// A register of the class, or the value's home slot where the class has slots.
    fn place_in(&mut self, s: &Sheet, class: u32, value: u32) -> Option<Place> {
        let class = &s.classes[class as usize];
        let home = s.homes[value as usize].filter(|_| class.slots);
        match home {
            Some(h) if class.regs.is_empty() || self.rng.pct(40) => Some(Place::Slot(h)),
            _ if class.regs.is_empty() => None,
            _ => Some(Place::Reg(self.rng.pick(&class.regs))),
        }
    }
}

/// Is this edit a move from memory?
fn is_load(s: &Sheet, k: usize) -> bool {
    match s.edits[k].1 {
        Edit::Move { from: Place::Slot(_), .. } => true,
        Edit::Move { from: Place::Reg(r), .. } => s.regs[r as usize].memory,
        _ => false,
    }
}

/// From the edits before edit `k` and the operands and parameters of its block.
fn near(s: &Sheet, k: usize) -> Near {
    let mut near = Near::default();
    let block_of = s.inst_blocks();
    let last = s.edits.get(k).map_or(block_of.len() as u32 - 1, |e| e.0);
    let block = block_of[last as usize];
    let here = |inst: u32| inst <= last && block_of[inst as usize] == block;
    for &(inst, e) in s.edits[..k].iter().rev().take(16) {
        match e {
            Edit::Move { to, value, .. }
            | Edit::Remat { to, value }
            | Edit::Irem { to, value, .. }
                if here(inst) =>
            {
                near.pairs.push((value, to))
            }
            _ => {}
        }
    }
    for o in s.ops.iter().filter(|o| o.inst < last && here(o.inst)) {
        match (o.kind, o.con) {
            (OpKind::Def | OpKind::Early, _) => near.pairs.push((o.subject, o.place)),
            (OpKind::DefG | OpKind::EarlyG, Con::Class(c)) => near.groups.push((o.subject, c)),
            _ => {}
        }
    }
    for p in s.params.iter().filter(|p| p.block == block) {
        near.pairs.push((p.value, p.place));
    }
    near
}
