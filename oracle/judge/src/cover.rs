//! What a file of cases exercises, and whether something that it should is missing.

use std::collections::BTreeMap;

use crate::frames::Case;
use crate::read::read;
use crate::requests;
use crate::rules::{self, BRANCHES};
use crate::run::{self, Outcome};
use crate::sheet::*;
use crate::why::{self, RECIPE_RULES};

/// The counts of the answer, and the lowest level that can raise each.
const COUNTS: [(&str, usize); 10] = [
    ("blocks_preprocessed", 3),
    ("redundant_reload", 1),
    ("redundant_move", 1),
    ("redundant_remat", 1),
    ("redundant_spill", 1),
    ("reload_to_move", 1),
    ("stack_use", 1),
    ("dead_spill", 0),
    ("dead_remat", 0),
    ("to_indirect_remat", 1),
];

/// The counts that an answer has.
fn written() -> &'static [(&'static str, usize)] {
    &COUNTS[..run::written_counts()]
}

/// The refusals that a sheet can meet.
fn refusals() -> Vec<(u32, bool)> {
    REFUSALS.into_iter().filter(|r| r.0 != 13 || requests::recipes()).collect()
}

/// In the order of the table, each with whether it tells a row.
const REFUSALS: [(u32, bool); 14] = [
    (7, false),
    (1, false),
    (2, false),
    (3, false),
    (4, false),
    (4, true),
    (9, true),
    (10, true),
    (11, true),
    (12, true),
    (5, false),
    (6, false),
    (13, false),
    (8, false),
];

fn name_of((n, row): (u32, bool)) -> String {
    if row { format!("{n} at a row") } else { n.to_string() }
}

const SIZES: [usize; 6] = [300, 1000, 4000, 16_000, 40_000, MAX_SHEET];

#[derive(Default)]
struct Tally {
    accepted: usize,
    refused: BTreeMap<(u32, bool), usize>,
    most_row: u32,
    by_level: [usize; 4],
    by_sweep: [usize; 2],
    by_size: [usize; 6],
    /// Cases with a count above 0, by level.
    nonzero: [[usize; 10]; 4],
    sums: [u64; 10],
    most: [u32; 10],
    visited_again: usize,
    features: Vec<(&'static str, usize)>,
    recipes: Recipes,
}

/// Request 2: cases by branch, and by rule of 13, with those where it is the only one broken.
#[derive(Default)]
struct Recipes {
    branches: BTreeMap<&'static str, usize>,
    rules: BTreeMap<&'static str, (usize, usize)>,
}

impl Tally {
    fn take(&mut self, c: &Case) {
        match run::accept(c) {
            Err(sum) => {
                self.take_refused(sum);
                if sum == 13 {
                    self.recipes.take_refused(c);
                }
            }
            Ok(sheet) => {
                let out = run::run(&sheet, c.level, c.sweep);
                if run::write(&out).len() > c.cap {
                    self.take_refused(8);
                } else {
                    self.take_accepted(c, &sheet, &out);
                }
            }
        }
    }

    fn take_refused(&mut self, sum: u32) {
        let (row, n) = (sum / 100, sum % 100);
        *self.refused.entry((n, row > 0)).or_default() += 1;
        self.most_row = self.most_row.max(row);
    }

    fn take_accepted(&mut self, c: &Case, sheet: &Sheet, out: &Outcome) {
        let level = c.level as usize;
        self.accepted += 1;
        self.by_level[level] += 1;
        self.by_sweep[c.sweep as usize] += 1;
        self.by_size[SIZES.iter().position(|&m| c.sheet.len() <= m).unwrap()] += 1;
        for (k, &n) in out.counts.iter().enumerate() {
            self.nonzero[level][k] += (n > 0) as usize;
            self.sums[k] += n as u64;
            self.most[k] = self.most[k].max(n);
        }
        // Each block with successors is visited once at least.
        self.visited_again += (out.counts[0] as usize > sheet.succs.len()) as usize;
        if requests::recipes() {
            self.recipes.take_accepted(sheet, c.level);
        }
        let more = if requests::recipes() { of_recipes(sheet, out) } else { vec![] };
        for (name, on) in features(sheet, out).into_iter().chain(more) {
            match self.features.iter_mut().find(|f| f.0 == name) {
                Some(f) => f.1 += on as usize,
                None => self.features.push((name, on as usize)),
            }
        }
    }

    fn print(&self, cases: usize) {
        println!("cases {cases}  accepted {}", self.accepted);
        let refused: String =
            refusals().into_iter().map(|r| format!("  {}: {}", name_of(r), self.of(r))).collect();
        println!("refused:{refused}");
        println!("highest row told {}", self.most_row);
        println!("accepted by level {:?}, by sweep flag {:?}", self.by_level, self.by_sweep);
        println!("accepted by sheet bytes up to {SIZES:?}: {:?}", self.by_size);
        println!("level 3 with some block visited again: {}\n", self.visited_again);
        println!("count non-zero in        lvl 0    lvl 1    lvl 2    lvl 3        sum   most");
        for (k, (name, _)) in written().iter().enumerate() {
            let by_level = self.nonzero.map(|l| format!(" {:>8}", l[k])).concat();
            println!("{name:20}{by_level} {:>10} {:>6}", self.sums[k], self.most[k]);
        }
        println!("\naccepted sheets with:");
        for (name, n) in &self.features {
            println!("  {n:>8}  {name}");
        }
        if requests::recipes() {
            self.recipes.print();
        }
    }

    fn of(&self, r: (u32, bool)) -> usize {
        self.refused.get(&r).copied().unwrap_or(0)
    }

    /// What no case shows, though it should.
    fn missing(&self) -> Vec<String> {
        let mut l = vec![];
        for r in refusals() {
            if self.of(r) == 0 {
                l.push(format!("refusal {}", name_of(r)));
            }
        }
        for (k, &(name, lowest)) in written().iter().enumerate() {
            for level in lowest..4 {
                if self.nonzero[level][k] == 0 {
                    l.push(format!("{name} at level {level}"));
                }
            }
        }
        if requests::recipes() {
            self.recipes.missing(&mut l);
        }
        l
    }
}

impl Recipes {
    fn take_refused(&mut self, c: &Case) {
        let broken = why::why(&read(&c.sheet).unwrap()).2;
        for rule in &broken {
            let t = self.rules.entry(rule).or_default();
            t.0 += 1;
            t.1 += (broken.len() == 1) as usize;
        }
    }

    fn take_accepted(&mut self, sheet: &Sheet, level: u32) {
        for branch in rules::branches(sheet, level) {
            *self.branches.entry(branch).or_default() += 1;
        }
    }

    fn of(&self, branch: &str) -> usize {
        self.branches.get(branch).copied().unwrap_or(0)
    }

    fn of_rule(&self, rule: &str) -> (usize, usize) {
        self.rules.get(rule).copied().unwrap_or_default()
    }

    fn print(&self) {
        println!("\naccepted sheets where, rebuilding,");
        for b in BRANCHES {
            println!("  {:>8}  {b}", self.of(b));
        }
        println!("\nrefused with 13, and for this alone:");
        for r in RECIPE_RULES {
            let (all, alone) = self.of_rule(r);
            println!("  {all:>8} {alone:>8}  {r}");
        }
    }

    fn missing(&self, l: &mut Vec<String>) {
        l.extend(BRANCHES.into_iter().filter(|b| self.of(b) == 0).map(String::from));
        let rules = RECIPE_RULES.into_iter().filter(|r| self.of_rule(r).1 == 0);
        l.extend(rules.map(|r| format!("13 for {r} alone")));
    }
}

/// True if each refusal comes up, 4 with a row and without one, and each count at each level that can raise it.
pub fn cover(cases: &[Case]) -> bool {
    let mut t = Tally::default();
    cases.iter().for_each(|c| t.take(c));
    t.print(cases.len());
    let missing = t.missing();
    if missing.is_empty() {
        println!("nothing missing: every refusal, every count at every level that can raise it");
    } else {
        println!("MISSING: {}", missing.join(", "));
    }
    missing.is_empty()
}

fn features(s: &Sheet, out: &Outcome) -> Vec<(&'static str, bool)> {
    let kind = |k: OpKind| s.ops.iter().any(|o| o.kind == k);
    let preds = s.neighbours(&s.preds);
    let mut shared_unit = false;
    for (i, a) in s.regs.iter().enumerate() {
        shared_unit |= s.regs[..i].iter().any(|b| b.units.iter().any(|u| a.units.contains(u)));
    }
    let shared_home =
        (0..s.homes.len()).any(|v| s.homes[v].is_some() && s.homes[..v].contains(&s.homes[v]));
    vec![
        ("def", kind(OpKind::Def)),
        ("use", kind(OpKind::Use)),
        ("early", kind(OpKind::Early)),
        ("defg", kind(OpKind::DefG)),
        ("useg", kind(OpKind::UseG)),
        ("earlyg", kind(OpKind::EarlyG)),
        ("fixed", kind(OpKind::Fixed)),
        ("f constraint", s.ops.iter().any(|o| matches!(o.con, Con::Fixed(_)))),
        ("u constraint, def", s.ops.iter().any(|o| o.kind == OpKind::Def && matches!(o.con, Con::Reuse(_)))),
        ("u constraint, defg", s.ops.iter().any(|o| o.kind == OpKind::DefG && matches!(o.con, Con::Reuse(_)))),
        ("register of several units", s.regs.iter().any(|r| r.units.len() > 1)),
        ("unit shared by registers", shared_unit),
        ("memory register", s.regs.iter().any(|r| r.memory)),
        ("empty class", s.classes.iter().any(|c| c.regs.is_empty())),
        ("value without home", s.homes.contains(&None)),
        ("shared home slot", shared_home),
        ("parameter", !s.params.is_empty()),
        ("clobber", !s.clobs.is_empty()),
        ("several blocks", s.blocks.len() > 1),
        ("several entries", s.blocks.iter().filter(|b| b.entry).count() > 1),
        ("block 0 no entry", s.blocks.first().is_some_and(|b| !b.entry)),
        ("join", preds.iter().any(|p| p.len() > 1)),
        ("back edge or self edge", preds.iter().enumerate().any(|(b, p)| p.iter().any(|&x| x as usize >= b))),
        ("no exit block", s.succs.len() == s.blocks.len()),
        ("move", s.edits.iter().any(|e| matches!(e.1, Edit::Move { .. }))),
        ("slot to slot", s.edits.iter().any(|e| matches!(e.1, Edit::Move { to: Place::Slot(_), from: Place::Slot(_), .. }))),
        ("move to itself", s.edits.iter().any(|e| matches!(e.1, Edit::Move { to, from, .. } if to == from))),
        ("remat to register", s.edits.iter().any(|e| matches!(e.1, Edit::Remat { to: Place::Reg(_), .. }))),
        ("remat to slot", s.edits.iter().any(|e| matches!(e.1, Edit::Remat { to: Place::Slot(_), .. }))),
        ("emergency pair", s.edits.iter().any(|e| matches!(e.1, Edit::Espill { .. }))),
        ("emergency pair, wide register", s.edits.iter().any(|e| matches!(e.1, Edit::Espill { from: Place::Reg(r), .. } if s.regs[r as usize].units.len() > 1))),
        ("none edit given", s.edits.iter().any(|e| e.1 == Edit::None)),
        ("some fold", !out.folds.is_empty()),
        ("no edit and no place altered", out.folds.is_empty() && out.edits == s.edits),
        ("64 slots", s.slots == 64),
        ("128 registers", s.regs.len() == 128),
        ("16 classes", s.classes.len() == 16),
        ("32 groups", s.groups.len() == 32),
        ("256 values", s.homes.len() == 256),
        ("32 value groups", s.vgroups.len() == 32),
        ("64 blocks", s.blocks.len() == 64),
        ("512 instructions", s.num_insts() == 512),
        ("2,048 operands", s.ops.len() == 2048),
        ("1,024 edits", s.edits.len() == 1024),
    ]
}

fn of_recipes(s: &Sheet, out: &Outcome) -> Vec<(&'static str, bool)> {
    let recipe = |f: &dyn Fn(&Recipe) -> bool| s.recipes.iter().any(f);
    let input = |f: &dyn Fn(&Rin) -> bool| s.recipes.iter().flat_map(|r| &r.inputs).any(f);
    let given = |f: &dyn Fn(Place, &[Place]) -> bool| {
        s.edits.iter().any(|e| matches!(e.1, Edit::Irem { to, inputs, .. } if f(to, &inputs)))
    };
    let pairs = || s.edits.iter().zip(&out.edits);
    let is_irem = |e: &Edit| matches!(e, Edit::Irem { .. });
    let is_slot = |p: &Place| matches!(p, Place::Slot(_));
    let rebuilt = |f: &dyn Fn(Place, u32, &[Place]) -> bool| {
        pairs().any(|(a, b)| match b.1 {
            Edit::Irem { to, value, inputs } => !is_irem(&a.1) && f(to, value, &inputs),
            _ => false,
        })
    };
    vec![
        ("recipe", !s.recipes.is_empty()),
        ("recipe, class destination", recipe(&|r| matches!(r.con, Con::Class(_)))),
        ("recipe, fixed destination", recipe(&|r| matches!(r.con, Con::Fixed(_)))),
        ("recipe, reused destination", recipe(&|r| matches!(r.con, Con::Reuse(_)))),
        ("recipe, overlap allowed", recipe(&|r| r.overlap)),
        ("recipe, overlap forbidden", recipe(&|r| !r.overlap)),
        ("recipe without inputs", recipe(&|r| r.inputs.is_empty())),
        ("recipe of more than four inputs", recipe(&|r| r.inputs.len() > 4)),
        (
            "recipe with the value itself",
            recipe(&|r| r.inputs.iter().any(|i| i.kind == OpKind::Use && i.subject == r.value)),
        ),
        ("rin use, class", input(&|i| i.kind == OpKind::Use && matches!(i.con, Con::Class(_)))),
        (
            "rin use, fixed register",
            input(&|i| i.kind == OpKind::Use && matches!(i.con, Con::Fixed(_))),
        ),
        ("rin useg", input(&|i| i.kind == OpKind::UseG)),
        ("rin fixed", input(&|i| i.kind == OpKind::Fixed)),
        ("irem given, no inputs", given(&|_, l| l.is_empty())),
        ("irem given, a slot input", given(&|_, l| l.iter().any(is_slot))),
        ("irem given, a place twice", given(&|_, l| (1..l.len()).any(|i| l[..i].contains(&l[i])))),
        ("irem given, to a slot", given(&|to, _| is_slot(&to))),
        ("irem given, its own input", given(&|to, l| l.contains(&to))),
        ("irem given, removed", pairs().any(|(a, b)| is_irem(&a.1) && b.1 == Edit::None)),
        ("irem given, kept", pairs().any(|(a, b)| is_irem(&a.1) && is_irem(&b.1))),
        ("rebuilt", rebuilt(&|_, _, _| true)),
        ("rebuilt, no inputs", rebuilt(&|_, _, l| l.is_empty())),
        ("rebuilt, several inputs", rebuilt(&|_, _, l| l.len() > 1)),
        ("rebuilt, a slot input", rebuilt(&|_, _, l| l.iter().any(is_slot))),
        ("rebuilt, to a slot", rebuilt(&|to, _, _| is_slot(&to))),
        ("rebuilt, its own input", rebuilt(&|to, _, l| l.contains(&to))),
        ("rebuilt and then gone", {
            let kept = pairs().filter(|(a, b)| !is_irem(&a.1) && is_irem(&b.1)).count();
            out.counts[9] as usize > kept
        }),
    ]
}
