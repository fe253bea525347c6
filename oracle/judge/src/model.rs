//! Level 0 and the sweep against two parts of document 01: the "model of a run"
//! (registers and used slots agree on every walk before and after), and "brought on"
//! (exactly the edits go whose content is never read).

use crate::frames::Case;
use crate::rng::Rng;
use crate::rules;
use crate::run;
use crate::sheet::*;

fn mix(parts: &[u64]) -> u64 {
    let mut h = 0x1234_5678_9ABC_DEF0u64;
    for &p in parts {
        h = (h ^ p).wrapping_mul(0x9E37_79B9_7F4A_7C15);
        h ^= h >> 29;
    }
    h | 1
}

#[derive(Clone)]
struct State {
    units: Vec<u64>,
    slots: Vec<Vec<u64>>,
}

impl State {
    fn read(&self, s: &Sheet, p: Place) -> Vec<u64> {
        match p {
            Place::Reg(r) => {
                s.regs[r as usize].units.iter().map(|&u| self.units[u as usize]).collect()
            }
            Place::Slot(x) => self.slots[x as usize].clone(),
        }
    }
    fn write(&mut self, s: &Sheet, p: Place, words: Vec<u64>) {
        match p {
            Place::Reg(r) => {
                for (k, &u) in s.regs[r as usize].units.iter().enumerate() {
                    self.units[u as usize] = words.get(k).copied().unwrap_or(0);
                }
            }
            Place::Slot(x) => self.slots[x as usize] = words,
        }
    }
    fn edit(&mut self, s: &Sheet, e: Edit) {
        match e {
            Edit::Move { to, from, .. }
            | Edit::Espill { to, from }
            | Edit::Ereload { to, from } => {
                let w = self.read(s, from);
                self.write(s, to, w);
            }
            Edit::Remat { to, value } => {
                let w = (0..128).map(|k| mix(&[7, value as u64, k])).collect();
                self.write(s, to, w);
            }
            Edit::Irem { to, value, inputs } => {
                // Lengths too: two lists are not one.
                let mut read = vec![11, value as u64];
                for &p in inputs.iter() {
                    let words = self.read(s, p);
                    read.push(words.len() as u64);
                    read.extend(words);
                }
                let seen = mix(&read);
                self.write(s, to, (0..128).map(|k| mix(&[13, seen, k])).collect());
            }
            Edit::None => {}
        }
    }
    /// What the instruction reads, as one word.
    fn seen(&self, ops: &[Op]) -> u64 {
        let mut seen = self.units.clone();
        for o in ops {
            if let (OpKind::Use, Place::Slot(x)) = (o.kind, o.place) {
                seen.push(self.slots[x as usize].len() as u64);
                seen.extend(&self.slots[x as usize]);
            }
        }
        mix(&seen)
    }
    /// Carries an instruction out; gives what it read.
    fn inst(&mut self, s: &Sheet, inst: u32, ops: &[Op]) -> u64 {
        let seen = self.seen(ops);
        let mut defined = [false; 128];
        for (k, o) in ops.iter().enumerate() {
            for (m, place) in defined_places(s, ops, o).into_iter().enumerate() {
                let word = |j: u64| mix(&[inst as u64, k as u64, j + 1000 * m as u64, seen]);
                let words = match place {
                    Place::Reg(r) => {
                        s.regs[r as usize].units.iter().for_each(|&u| defined[u as usize] = true);
                        (0..128).map(word).collect()
                    }
                    Place::Slot(_) => vec![word(0)],
                };
                self.write(s, place, words);
            }
        }
        for &u in s.clobs.iter().filter(|c| c.0 == inst).flat_map(|c| &c.1) {
            if !defined[u as usize] {
                self.units[u as usize] = 0;
            }
        }
        seen
    }
}

/// The places that an operand defines, in turn.
fn defined_places(s: &Sheet, ops: &[Op], o: &Op) -> Vec<Place> {
    match o.kind {
        OpKind::Def | OpKind::Early => vec![o.place],
        OpKind::DefG | OpKind::EarlyG => {
            let con = match o.con {
                Con::Reuse(i) => ops[i as usize].con,
                con => con,
            };
            let begins =
                |g: &&Group| Con::Class(g.class) == con && Place::Reg(g.regs[0]) == o.place;
            let group = s.groups.iter().find(begins).unwrap();
            group.regs.iter().map(|&r| Place::Reg(r)).collect()
        }
        _ => vec![],
    }
}

/// Instructions of each block, in turn.
fn block_starts(s: &Sheet) -> Vec<u32> {
    let mut starts = vec![0];
    for b in &s.blocks {
        starts.push(starts.last().unwrap() + b.insts);
    }
    starts
}

/// One random walk, with the given edits and with the swept ones side by side. Gives
/// the number of instructions, or the one at which they part.
fn walk(s: &Sheet, after: &[(u32, Edit)], rng: &mut Rng) -> Result<u64, u32> {
    let starts = block_starts(s);
    let succs = s.neighbours(&s.succs);
    let mut a = State {
        units: (0..128).map(|_| rng.next()).collect(),
        slots: (0..s.slots).map(|_| (0..rng.below(4)).map(|_| rng.next()).collect()).collect(),
    };
    let mut b = a.clone();
    let mut block = rng.below(s.blocks.len());
    let mut insts = 0;
    for _ in 0..40 {
        for inst in starts[block]..starts[block + 1] {
            insts += 1;
            for e in s.edits_of(inst) {
                a.edit(s, s.edits[e].1);
                b.edit(s, after[e].1);
            }
            let ops = &s.ops[s.ops_of(inst)];
            let same = a.units == b.units
                && a.inst(s, inst, ops) == b.inst(s, inst, ops)
                && a.units == b.units;
            if !same {
                return Err(inst);
            }
        }
        if succs[block].is_empty() {
            break;
        }
        block = rng.pick(&succs[block]) as usize;
    }
    Ok(insts)
}

/// Both parts. `quirk`: a mistake of rules.rs in the sweep's place, to see that the
/// report can fail.
pub fn report(cases: &[Case], quirk: Option<u32>) -> bool {
    let swept = |s: &Sheet| match quirk {
        Some(q) => rules::run_quirk(s, 0, 1, q).edits,
        None => run::run(s, 0, 1).edits,
    };
    walks(cases, &swept) & exact(cases, &swept)
}

type Swept<'a> = &'a dyn Fn(&Sheet) -> Vec<(u32, Edit)>;

fn walks(cases: &[Case], swept: Swept) -> bool {
    let mut rng = Rng(1);
    let (mut sheets, mut walks, mut insts, mut bad) = (0, 0, 0, 0);
    for (k, c) in cases.iter().enumerate() {
        let Ok(s) = run::accept(c) else { continue };
        sheets += 1;
        let after = swept(&s);
        for _ in 0..4 {
            walks += 1;
            match walk(&s, &after, &mut rng) {
                Ok(n) => insts += n,
                Err(inst) => {
                    bad += 1;
                    if bad < 5 {
                        println!("case {k}: registers or used slots part at instruction {inst}");
                    }
                }
            }
        }
    }
    println!(
        "level 0 and sweep: {sheets} sheets, {walks} walks, {insts} instructions, {bad} walks part"
    );
    bad == 0
}

// ---- brought on ------------------------------------------------------------------

/// Sheets with more edits are passed over, for time.
const MOST_EDITS: usize = 400;

/// One step of a block: an edit of the list, or an instruction.
#[derive(Clone, Copy)]
enum Step {
    Edit(usize),
    Inst(u32),
}

/// Is content that stands in `slot` right after step `at` of `block` ever read?
/// Follows the paper's "brought on" forward, place by place.
fn is_read(
    s: &Sheet,
    steps: &[Vec<Step>],
    succs: &[Vec<u32>],
    block: usize,
    at: usize,
    slot: u32,
) -> bool {
    let slots = s.slots as usize;
    let mut seen: Vec<Vec<bool>> =
        steps.iter().map(|l| vec![false; (l.len() + 1) * slots]).collect();
    // (block, next step, slot)
    let mut work = vec![(block, at + 1, slot)];
    while let Some((b, i, x)) = work.pop() {
        if std::mem::replace(&mut seen[b][i * slots + x as usize], true) {
            continue;
        }
        let Some(&step) = steps[b].get(i) else {
            for &n in &succs[b] {
                work.push((n as usize, 0, x));
            }
            continue;
        };
        let here = Place::Slot(x);
        let mut stays = true;
        match step {
            Step::Inst(inst) => {
                let mut here_ops = s.ops[s.ops_of(inst)].iter().filter(|o| o.place == here);
                if here_ops.clone().any(|o| o.kind == OpKind::Use) {
                    return true;
                }
                stays = !here_ops.any(|o| matches!(o.kind, OpKind::Def | OpKind::Early));
            }
            Step::Edit(e) => match s.edits[e].1 {
                Edit::Move { to, from, .. } => {
                    if from == here {
                        match to {
                            Place::Reg(_) => return true,
                            Place::Slot(t) => work.push((b, i + 1, t)),
                        }
                    } else if to == here {
                        stays = false;
                    }
                }
                Edit::Irem { to, inputs, .. } => {
                    if inputs.contains(&here) {
                        match to {
                            Place::Reg(_) => return true,
                            Place::Slot(t) => work.push((b, i + 1, t)),
                        }
                    } else if to == here {
                        stays = false;
                    }
                }
                Edit::Ereload { from, .. } if from == here => return true,
                Edit::Remat { to, .. } | Edit::Espill { to, .. } if to == here => stays = false,
                _ => {}
            },
        }
        if stays {
            work.push((b, i + 1, x));
        }
    }
    false
}

fn steps_of(s: &Sheet) -> Vec<Vec<Step>> {
    let starts = block_starts(s);
    let of_block = |b: usize| {
        let mut l = vec![];
        for inst in starts[b]..starts[b + 1] {
            l.extend(s.edits_of(inst).map(Step::Edit));
            l.push(Step::Inst(inst));
        }
        l
    };
    (0..s.blocks.len()).map(of_block).collect()
}

#[derive(Default)]
struct Tally {
    kept: usize,
    gone: usize,
    bad: usize,
}

/// An edit into a slot goes exactly if what it brings is never read; others stay.
fn exact_one(s: &Sheet, after: &[(u32, Edit)], t: &mut Tally) {
    let succs = s.neighbours(&s.succs);
    let steps = steps_of(s);
    for (b, list) in steps.iter().enumerate() {
        for (i, &step) in list.iter().enumerate() {
            let Step::Edit(e) = step else { continue };
            match s.edits[e].1 {
                Edit::Move { to: Place::Slot(x), .. }
                | Edit::Remat { to: Place::Slot(x), .. }
                | Edit::Irem { to: Place::Slot(x), .. } => {
                    let gone = after[e].1 == Edit::None;
                    t.kept += !gone as usize;
                    t.gone += gone as usize;
                    t.bad += (is_read(s, &steps, &succs, b, i, x) == gone) as usize;
                }
                _ => t.bad += (s.edits[e] != after[e]) as usize,
            }
        }
    }
}

fn exact(cases: &[Case], swept: Swept) -> bool {
    let mut t = Tally::default();
    let mut sheets = 0;
    for (k, c) in cases.iter().enumerate() {
        let Ok(s) = run::accept(c) else { continue };
        if s.edits.len() > MOST_EDITS {
            continue;
        }
        sheets += 1;
        let bad = t.bad;
        exact_one(&s, &swept(&s), &mut t);
        if t.bad > bad && bad < 5 {
            println!("case {k}: {} edits against `brought on`", t.bad - bad);
        }
    }
    println!(
        "brought on: {sheets} sheets (at most {MOST_EDITS} edits), {} edits into slots kept, {} gone, \
         {} against the rule",
        t.kept, t.gone, t.bad
    );
    t.bad == 0
}
