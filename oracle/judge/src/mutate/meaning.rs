//! Damage by meaning: a sheet that still has whole rows.

use crate::requests;
use crate::rng::Rng;
use crate::sheet::*;

/// At a limit, or one over it.
pub(super) fn limit(rng: &mut Rng, mut s: Sheet) -> Sheet {
    let over = rng.below(2);
    if requests::recipes() && rng.pct(10) {
        recipe_at(rng, &mut s, 127 + over as u32);
        return s;
    }
    match rng.below(14) {
        0 => s.slots = 64 + over as u32,
        1 => {
            while s.regs.len() < MAX_REGS + over {
                let u = rng.below(128) as u32;
                s.regs.push(Reg { memory: false, units: vec![u] });
            }
        }
        2 => {
            let r = rng.below(s.regs.len());
            let k = s.regs[r].units.len();
            s.regs[r].units[rng.below(k)] = 127 + over as u32;
        }
        3 => {
            while s.classes.len() < MAX_CLASSES + over {
                s.classes.push(Class { slots: rng.pct(50), regs: vec![] });
            }
        }
        4 => fill_groups(&mut s, MAX_GROUPS + over),
        5 => {
            while s.homes.len() < MAX_VALUES + over {
                s.homes.push(None);
            }
        }
        6 => {
            while s.vgroups.len() < MAX_VGROUPS + over {
                let v = rng.below(s.homes.len()) as u32;
                s.vgroups.push(vec![v]);
            }
        }
        7 => {
            while s.blocks.len() < MAX_BLOCKS + over {
                s.blocks.push(Block { insts: 1, idom: None, entry: true });
            }
        }
        8 => {
            let need = (MAX_INSTS + over).saturating_sub(s.num_insts()) as u32;
            // The last block, so that no instruction is renumbered.
            s.blocks.last_mut().unwrap().insts += need;
        }
        9 => {
            let (i, r) = (last_inst(&s), rng.below(s.regs.len()) as u32);
            while s.ops.len() < MAX_OPS + over {
                s.ops.push(fixed(i, r));
            }
        }
        10 => {
            let i = last_inst(&s);
            while s.edits.len() < MAX_EDITS + over {
                s.edits.push((i, Edit::None));
            }
        }
        11 => reuse_at(&mut s, 127 + over as u32),
        12 => {
            let i = last_inst(&s);
            s.clobs.retain(|c| c.0 != i);
            let u = if over == 1 { 128 } else { 127 };
            s.clobs.push((i, vec![u]));
        }
        _ => fill_bytes(&mut s, MAX_SHEET + over),
    }
    s
}

fn last_inst(s: &Sheet) -> u32 {
    s.num_insts().saturating_sub(1) as u32
}

fn fixed(inst: u32, reg: u32) -> Op {
    let (con, place) = (Con::Fixed(reg), Place::Reg(reg));
    Op { inst, kind: OpKind::Fixed, subject: 0, con, place }
}

/// Up to so many groups, each (class, first register) pair but once.
fn fill_groups(s: &mut Sheet, most: usize) {
    while s.classes.len() < MAX_CLASSES {
        s.classes.push(Class { slots: false, regs: vec![] });
    }
    for class in 0..MAX_CLASSES as u32 {
        for r in 0..s.regs.len() as u32 {
            let there = s.groups.iter().any(|g| g.class == class && g.regs[0] == r);
            if s.groups.len() < most && !there {
                s.groups.push(Group { class, regs: vec![r] });
            }
        }
    }
}

/// The last instruction gets 130 uses and a definition that reuses one of them.
fn reuse_at(s: &mut Sheet, index: u32) {
    let inst = last_inst(s);
    s.ops.retain(|o| o.inst != inst);
    let (con, place) = match s.classes.iter().position(|c| !c.regs.is_empty()) {
        Some(c) => (Con::Class(c as u32), Place::Reg(s.classes[c].regs[0])),
        None => (Con::Fixed(0), Place::Reg(0)),
    };
    let used = Op { inst, kind: OpKind::Use, subject: 0, con, place };
    s.ops.extend([used; 130]);
    s.ops.push(Op { kind: OpKind::Def, con: Con::Reuse(index), ..used });
}

/// A recipe, or an input, that reuses an input of this number.
fn recipe_at(rng: &mut Rng, s: &mut Sheet, index: u32) {
    let con = Con::Reuse(index);
    let input = Rin { kind: OpKind::Use, subject: 0, con };
    match s.recipes.last_mut() {
        Some(r) if rng.pct(50) => r.inputs.push(input),
        Some(r) => r.con = con,
        None => s.recipes.push(Recipe { value: 0, con, overlap: rng.pct(50), inputs: vec![] }),
    }
}

/// Up to so many bytes, by values, `none` edits and `fixed` operands of the last
/// instruction, and then `remat` edits of values with as many digits as are wanted.
fn fill_bytes(s: &mut Sheet, goal: usize) {
    let inst = last_inst(s);
    let digits = inst.to_string().len();
    while s.homes.len() < MAX_VALUES {
        s.homes.push(None);
    }
    let mut len = s.print().len();
    while len + 400 < goal && s.edits.len() + 30 < MAX_EDITS {
        s.edits.push((inst, Edit::None));
        len += 18 + digits;
    }
    while len + 400 < goal {
        s.ops.push(fixed(inst, 0));
        len += 19 + digits;
    }
    if len < goal {
        let rows = (goal - len) / (20 + digits);
        let mut more = goal - len - rows * (20 + digits);
        for _ in 0..rows {
            let k = more.min(2);
            more -= k;
            s.edits.push((inst, Edit::Remat { to: Place::Reg(0), value: [1, 10, 100][k] }));
        }
    }
}

/// One number that names something: mostly the first absent one.
pub(super) fn wrong(rng: &mut Rng, n: usize) -> u32 {
    match rng.below(4) {
        0 | 1 => n as u32,
        2 => n.saturating_sub(1) as u32,
        _ => rng.pick(&[0, 1, 63, 64, 127, 128, 255, 256, 511, 512, 99_999]),
    }
}

pub(super) fn wrong_place(rng: &mut Rng, s: &Sheet) -> Place {
    if rng.pct(50) {
        Place::Reg(wrong(rng, s.regs.len()))
    } else {
        Place::Slot(wrong(rng, s.slots as usize))
    }
}

pub(super) fn names(rng: &mut Rng, s: &mut Sheet) {
    let insts = s.num_insts();
    for _ in 0..20 {
        let done = match rng.below(16) {
            0 => {
                let r = rng.below(s.regs.len());
                let u = s.regs[r].units[0];
                s.regs[r].units.push(u);
                true
            }
            1 => {
                let n = s.regs.len();
                let c = rng.below(s.classes.len());
                let x = if rng.pct(50) || s.classes[c].regs.is_empty() {
                    wrong(rng, n)
                } else {
                    s.classes[c].regs[0]
                };
                s.classes[c].regs.push(x);
                true
            }
            2 if !s.groups.is_empty() => {
                let g = rng.below(s.groups.len());
                match rng.below(4) {
                    0 => s.groups[g].class = wrong(rng, s.classes.len()),
                    1 => {
                        let k = rng.below(s.groups[g].regs.len());
                        s.groups[g].regs[k] = wrong(rng, s.regs.len());
                    }
                    2 => {
                        let x = s.groups[g].regs[0];
                        s.groups[g].regs.push(x);
                    }
                    _ => {
                        let mut copy = s.groups[g].clone();
                        copy.regs.truncate(1);
                        s.groups.push(copy);
                    }
                }
                true
            }
            3 => {
                let v = rng.below(s.homes.len());
                s.homes[v] = Some(wrong(rng, s.slots as usize));
                true
            }
            4 if !s.vgroups.is_empty() => {
                let g = rng.below(s.vgroups.len());
                let x = if rng.pct(50) { wrong(rng, s.homes.len()) } else { s.vgroups[g][0] };
                s.vgroups[g].push(x);
                true
            }
            5 => {
                let b = rng.below(s.blocks.len());
                s.blocks[b].idom = Some(wrong(rng, s.blocks.len()));
                true
            }
            6 | 7 => {
                let n = s.blocks.len();
                let rows = if rng.pct(50) { &mut s.succs } else { &mut s.preds };
                if rows.is_empty() {
                    false
                } else {
                    let k = rng.below(rows.len());
                    match rng.below(3) {
                        0 => {
                            let x = rows[k].1[0];
                            rows[k].1.push(x);
                        }
                        1 => {
                            let j = rng.below(rows[k].1.len());
                            rows[k].1[j] = wrong(rng, n);
                        }
                        _ => {
                            let k = rows.len() - 1;
                            rows[k].0 = wrong(rng, n);
                        }
                    }
                    true
                }
            }
            8 if !s.params.is_empty() => {
                let k = rng.below(s.params.len());
                match rng.below(3) {
                    0 => s.params.last_mut().unwrap().block = wrong(rng, s.blocks.len()),
                    1 => s.params[k].value = wrong(rng, s.homes.len()),
                    _ => s.params[k].place = wrong_place(rng, s),
                }
                true
            }
            9..=11 if !s.ops.is_empty() => {
                let k = rng.below(s.ops.len());
                match rng.below(4) {
                    0 => s.ops.last_mut().unwrap().inst = wrong(rng, insts),
                    1 => {
                        let n =
                            if s.ops[k].kind.is_group() { s.vgroups.len() } else { s.homes.len() };
                        s.ops[k].subject = wrong(rng, n);
                    }
                    2 => {
                        s.ops[k].con = match s.ops[k].con {
                            Con::Class(_) => Con::Class(wrong(rng, s.classes.len())),
                            Con::Fixed(_) => Con::Fixed(wrong(rng, s.regs.len())),
                            Con::Reuse(_) => Con::Reuse(wrong(rng, 4)),
                        }
                    }
                    _ => s.ops[k].place = wrong_place(rng, s),
                }
                true
            }
            12 if !s.clobs.is_empty() => {
                let k = rng.below(s.clobs.len());
                match rng.below(3) {
                    0 => {
                        let x = s.clobs[k].1[0];
                        s.clobs[k].1.push(x);
                    }
                    1 => s.clobs[k].1[0] = rng.below(131) as u32,
                    _ => s.clobs.last_mut().unwrap().0 = wrong(rng, insts),
                }
                true
            }
            13..=15 if !s.edits.is_empty() => {
                let k = rng.below(s.edits.len());
                let p = wrong_place(rng, s);
                let v = wrong(rng, s.homes.len());
                let which = rng.below(4);
                if which == 0 {
                    s.edits.last_mut().unwrap().0 = wrong(rng, insts);
                } else {
                    match &mut s.edits[k].1 {
                        Edit::Move { to, from, value } => match which {
                            1 => *to = p,
                            2 => *from = p,
                            _ => *value = v,
                        },
                        Edit::Remat { to, value } => match which {
                            1 => *to = p,
                            _ => *value = v,
                        },
                        Edit::Irem { to, value, inputs } => match which {
                            1 => *to = p,
                            2 if !inputs.is_empty() => {
                                let mut list = inputs.to_vec();
                                list[rng.below(inputs.len())] = p;
                                *inputs = Inputs::new(&list);
                            }
                            _ => *value = v,
                        },
                        Edit::Espill { to, from } | Edit::Ereload { to, from } => match which {
                            1 => *to = p,
                            _ => *from = p,
                        },
                        Edit::None => {}
                    }
                }
                true
            }
            _ => false,
        };
        if done {
            return;
        }
    }
}

fn set_edge(rows: &mut Vec<(u32, Vec<u32>)>, a: u32, b: u32, on: bool) {
    match rows.iter_mut().find(|r| r.0 == a) {
        Some(r) => {
            r.1.retain(|&x| x != b);
            if on {
                r.1.push(b);
            }
        }
        None if on => rows.push((a, vec![b])),
        None => {}
    }
    rows.retain(|r| !r.1.is_empty());
    rows.sort_by_key(|r| r.0);
}

/// Often more than one damage: then the lowest block and the order of the rules tell.
pub(super) fn blocks(rng: &mut Rng, s: &mut Sheet) {
    for _ in 0..[1, 1, 2, 3][rng.below(4)] {
        block(rng, s);
    }
}

fn block(rng: &mut Rng, s: &mut Sheet) {
    let n = s.blocks.len();
    let b = rng.below(n);
    match rng.below(12) {
        0 => s.blocks.iter_mut().for_each(|x| x.entry = false),
        1 => {
            // Its instructions go to another block, if there is one.
            let k = s.blocks[b].insts;
            s.blocks[b].insts = 0;
            if n > 1 && rng.pct(80) {
                s.blocks[if b == 0 { 1 } else { b - 1 }].insts += k;
            }
        }
        2 => s.blocks[b].entry = !s.blocks[b].entry,
        3 => s.blocks[b].idom = Some(b as u32),
        4 => s.blocks[b].idom = Some(rng.below(n) as u32),
        5 if b > 0 => s.blocks[b].idom = Some(b as u32 - 1),
        // One side of an edge only.
        6 => {
            let (x, y) = (rng.below(n) as u32, rng.below(n) as u32);
            let on = rng.pct(50);
            set_edge(if rng.pct(50) { &mut s.succs } else { &mut s.preds }, x, y, on);
        }
        // A whole edge more or less.
        7 | 8 => {
            let (x, y) = (rng.below(n) as u32, rng.below(n) as u32);
            let on = rng.pct(60);
            set_edge(&mut s.succs, x, y, on);
            set_edge(&mut s.preds, y, x, on);
        }
        9 if !s.succs.is_empty() => {
            let k = rng.below(s.succs.len());
            let (x, l) = s.succs[k].clone();
            let y = l[rng.below(l.len())];
            set_edge(&mut s.succs, x, y, false);
            if rng.pct(60) {
                set_edge(&mut s.preds, y, x, false);
            }
        }
        // A block that nothing reaches, or a ring of two.
        10 if n < 60 => {
            s.blocks.push(Block { insts: 1, idom: None, entry: false });
            if rng.pct(50) {
                s.blocks.push(Block { insts: 1, idom: None, entry: false });
                let (x, y) = (n as u32, n as u32 + 1);
                for (x, y) in [(x, y), (y, x)] {
                    set_edge(&mut s.succs, x, y, true);
                    set_edge(&mut s.preds, y, x, true);
                }
            }
        }
        _ => {
            // The order of the blocks turned about.
            let m = n as u32 - 1;
            for rows in [&mut s.succs, &mut s.preds] {
                for r in rows.iter_mut() {
                    r.0 = m.saturating_sub(r.0);
                    r.1.iter_mut().for_each(|x| *x = m.saturating_sub(*x));
                }
                rows.sort_by_key(|r| r.0);
            }
            let flags: Vec<bool> = s.blocks.iter().rev().map(|x| x.entry).collect();
            for (x, f) in s.blocks.iter_mut().zip(flags) {
                x.entry = f;
            }
        }
    }
}

pub(super) fn operand(rng: &mut Rng, s: &mut Sheet) {
    if s.ops.is_empty() {
        return;
    }
    // Group and reuse operands are rarer, so look for them half of the time.
    let mut k = rng.below(s.ops.len());
    if rng.pct(50) {
        let rare: Vec<usize> = (0..s.ops.len())
            .filter(|&i| s.ops[i].kind.is_group() || matches!(s.ops[i].con, Con::Reuse(_)))
            .collect();
        if !rare.is_empty() {
            k = rng.pick(&rare);
        }
    }
    let o = s.ops[k];
    if let (Con::Reuse(i), true) = (o.con, rng.pct(20)) {
        // The reused operand alone changes.
        let first = s.ops.iter().position(|x| x.inst == o.inst).unwrap();
        let place = wrong_place(rng, s);
        if let Some(u) = s.ops.get_mut(first + i as usize) {
            match (rng.below(4), u.place) {
                (0 | 1, Place::Reg(r)) => u.con = Con::Fixed(r),
                (2, _) => u.kind = rng.pick(&[OpKind::Def, OpKind::Early, OpKind::Use]),
                _ => u.place = place,
            }
        }
        return;
    }
    match rng.below(10) {
        0 => {
            s.ops[k].place = if rng.pct(50) && s.slots > 0 {
                Place::Slot(rng.below(s.slots as usize) as u32)
            } else {
                Place::Reg(rng.below(s.regs.len()) as u32)
            }
        }
        1 => s.ops[k].con = Con::Class(rng.below(s.classes.len()) as u32),
        2 => s.ops[k].con = Con::Fixed(rng.below(s.regs.len()) as u32),
        3 => s.ops[k].con = Con::Reuse(rng.below(5) as u32),
        4 => {
            let kinds = [OpKind::Def, OpKind::Use, OpKind::Early, OpKind::Fixed];
            let groups = [OpKind::DefG, OpKind::UseG, OpKind::EarlyG];
            s.ops[k].kind = if o.kind.is_group() { rng.pick(&groups) } else { rng.pick(&kinds) };
        }
        5 => {
            let kinds = [OpKind::DefG, OpKind::UseG, OpKind::EarlyG, OpKind::Def, OpKind::Use];
            s.ops[k].kind = rng.pick(&kinds);
        }
        6 => {
            let n = if o.kind.is_group() { s.vgroups.len() } else { s.homes.len() };
            s.ops[k].subject = rng.below(n.max(1)) as u32;
        }
        7 => {
            let c = rng.below(s.classes.len());
            s.classes[c].slots = !s.classes[c].slots;
        }
        8 => {
            let c = rng.below(s.classes.len());
            let class = &mut s.classes[c];
            if !class.regs.is_empty() {
                let j = rng.below(class.regs.len());
                class.regs.remove(j);
            }
        }
        _ => {
            s.ops.remove(k);
        }
    }
}

pub(super) fn edits(rng: &mut Rng, s: &mut Sheet) {
    if s.edits.is_empty() {
        return;
    }
    let pairs: Vec<usize> = (0..s.edits.len())
        .filter(|&i| matches!(s.edits[i].1, Edit::Espill { .. } | Edit::Ereload { .. }))
        .collect();
    if pairs.is_empty() && rng.pct(50) {
        // Put an emergency edit or a pair in.
        let insts = s.num_insts();
        let at = rng.below(s.edits.len() + 1);
        let inst = match s.edits.get(at) {
            Some(e) => e.0,
            None => (insts as u32).saturating_sub(1),
        };
        let slot = Place::Slot(rng.below(s.slots.max(1) as usize) as u32);
        let reg = Place::Reg(rng.below(s.regs.len()) as u32);
        s.edits.insert(at, (inst, Edit::Espill { to: slot, from: reg }));
        if rng.pct(70) {
            let to = rng.range(at + 1, s.edits.len());
            let inst = s.edits.get(to).map_or((insts as u32).saturating_sub(1), |e| e.0);
            s.edits.insert(to, (inst, Edit::Ereload { to: reg, from: slot }));
        }
        return;
    }
    let k =
        if !pairs.is_empty() && rng.pct(70) { rng.pick(&pairs) } else { rng.below(s.edits.len()) };
    match rng.below(8) {
        0 => {
            let j = rng.below(s.edits.len());
            s.edits.swap(k, j);
        }
        1 => {
            s.edits.remove(k);
        }
        2 => {
            let e = s.edits[k];
            s.edits.insert(k, e);
        }
        3 => s.edits[k].0 = rng.below(s.num_insts()) as u32,
        4 => {
            if let Edit::Espill { to, from } | Edit::Ereload { to, from } = &mut s.edits[k].1 {
                std::mem::swap(to, from);
            }
        }
        5 => {
            s.edits[k].1 = match s.edits[k].1 {
                Edit::Espill { to, from } => Edit::Ereload { to, from },
                Edit::Ereload { to, from } => Edit::Espill { to, from },
                Edit::Move { to, from, .. } => Edit::Espill { to, from },
                e => e,
            }
        }
        6 => {
            let slot = Place::Slot(rng.below(s.slots.max(1) as usize) as u32);
            let reg = Place::Reg(rng.below(s.regs.len()) as u32);
            match &mut s.edits[k].1 {
                Edit::Espill { to, from } => {
                    if rng.pct(50) {
                        *to = slot;
                    } else {
                        *from = reg;
                    }
                }
                Edit::Ereload { to, from } => {
                    if rng.pct(50) {
                        *to = reg;
                    } else {
                        *from = slot;
                    }
                }
                _ => {}
            }
        }
        _ => {
            // Make the pair's slot a home slot, or its register shared.
            if let Edit::Espill { to: Place::Slot(x), from: Place::Reg(r) } = s.edits[k].1 {
                if rng.pct(50) {
                    let v = rng.below(s.homes.len());
                    s.homes[v] = Some(x);
                } else if s.regs.len() < MAX_REGS && (r as usize) < s.regs.len() {
                    let u = s.regs[r as usize].units[0];
                    s.regs.push(Reg { memory: false, units: vec![u] });
                }
            }
        }
    }
}
