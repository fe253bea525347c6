//! Which rules of the refusals 2 to 6 and 9 to 13 a sheet breaks, and at which block: a
//! second writing of the checks, rule by rule, against which accept.rs is held by
//! `oracle why`.

use std::collections::BTreeMap;

use crate::frames::Case;
use crate::read::read;
use crate::run;
use crate::sheet::*;

/// All rules broken at the first refusal number that has one, and the lowest block
/// concerned by them; where one concerns no block, none.
pub fn why(s: &Sheet) -> (u32, Option<u32>, Vec<&'static str>) {
    let no_block = |f: fn(&Sheet) -> Vec<&'static str>| -> Broken {
        f(s).into_iter().map(|rule| (rule, None)).collect()
    };
    let all: [(u32, &dyn Fn() -> Broken); 10] = [
        (2, &|| no_block(limits)),
        (3, &|| no_block(names)),
        (4, &|| entry_and_empty(s)),
        (9, &|| disagree(s)),
        (10, &|| edges(s)),
        (11, &|| not_smaller(s)),
        (12, &|| not_reached(s)),
        (5, &|| no_block(operands)),
        (6, &|| no_block(edits)),
        (13, &|| no_block(recipes)),
    ];
    for (n, broken) in all {
        let broken = broken();
        if !broken.is_empty() {
            let mut rules: Vec<&'static str> = broken.iter().map(|x| x.0).collect();
            rules.sort();
            rules.dedup();
            // `None` is the least.
            return (n, broken.iter().map(|x| x.1).min().unwrap(), rules);
        }
    }
    (0, None, vec![])
}

/// Each rule that is broken, and by which block, if by one.
type Broken = Vec<(&'static str, Option<u32>)>;

fn limits(s: &Sheet) -> Vec<&'static str> {
    let mut l = vec![];
    let mut over = |n: usize, most: usize, what| {
        if n > most {
            l.push(what);
        }
    };
    over(s.slots as usize, 64, "slots");
    over(s.regs.len(), 128, "registers");
    over(s.classes.len(), 16, "classes");
    over(s.groups.len(), 32, "groups");
    over(s.homes.len(), 256, "values");
    over(s.vgroups.len(), 32, "value groups");
    over(s.blocks.len(), 64, "blocks");
    over(s.blocks.iter().map(|b| b.insts).sum::<u32>() as usize, 512, "instructions");
    over(s.ops.len(), 2048, "operands");
    over(s.edits.len(), 1024, "edits");
    let unit = s.regs.iter().flat_map(|r| &r.units).max().copied().unwrap_or(0);
    over(unit as usize, 127, "unit in reg");
    let unit = s.clobs.iter().flat_map(|c| &c.1).max().copied().unwrap_or(0);
    over(unit as usize, 127, "unit in clob");
    for o in &s.ops {
        if let Con::Reuse(i) = o.con {
            over(i as usize, 127, "reuse index");
        }
    }
    for r in &s.recipes {
        if let Con::Reuse(i) = r.con {
            over(i as usize, 127, "iremat: reuse index");
        }
        for i in &r.inputs {
            if let Con::Reuse(i) = i.con {
                over(i as usize, 127, "rin: reuse index");
            }
        }
    }
    l.sort();
    l.dedup();
    l
}

fn names(s: &Sheet) -> Vec<&'static str> {
    let mut l: Vec<&'static str> = vec![];
    fn dup(list: &[u32]) -> bool {
        let mut x = list.to_vec();
        x.sort();
        x.windows(2).any(|w| w[0] == w[1])
    }
    let nr = s.regs.len() as u32;
    let nc = s.classes.len() as u32;
    let nv = s.homes.len() as u32;
    let ng = s.vgroups.len() as u32;
    let nb = s.blocks.len() as u32;
    let ni: u32 = s.blocks.iter().map(|b| b.insts).sum();
    let mut units: Vec<u32> = s.regs.iter().flat_map(|r| r.units.clone()).collect();
    units.sort();
    let place = |p: Place| match p {
        Place::Reg(r) => r < nr,
        Place::Slot(x) => x < s.slots,
    };
    for r in &s.regs {
        if dup(&r.units) {
            l.push("reg: unit twice");
        }
    }
    for c in &s.classes {
        if dup(&c.regs) {
            l.push("class: register twice");
        }
        if c.regs.iter().any(|&r| r >= nr) {
            l.push("class: absent register");
        }
    }
    let mut firsts: Vec<(u32, u32)> = vec![];
    for g in &s.groups {
        if dup(&g.regs) {
            l.push("group: register twice");
        }
        if g.regs.iter().any(|&r| r >= nr) {
            l.push("group: absent register");
        }
        if g.class >= nc {
            l.push("group: absent class");
        }
        if firsts.contains(&(g.class, g.regs[0])) {
            l.push("two groups share class and first register");
        }
        firsts.push((g.class, g.regs[0]));
    }
    for h in s.homes.iter().flatten() {
        if *h >= s.slots {
            l.push("value: absent home");
        }
    }
    for g in &s.vgroups {
        if dup(g) {
            l.push("vgroup: value twice");
        }
        if g.iter().any(|&v| v >= nv) {
            l.push("vgroup: absent value");
        }
    }
    for r in &s.recipes {
        if r.value >= nv {
            l.push("iremat: absent value");
        }
        match r.con {
            Con::Class(c) if c >= nc => l.push("iremat: absent class"),
            Con::Fixed(x) if x >= nr => l.push("iremat: absent fixed register"),
            _ => {}
        }
        for i in &r.inputs {
            match i.con {
                Con::Class(c) if c >= nc => l.push("rin: absent class"),
                Con::Fixed(x) if x >= nr => l.push("rin: absent fixed register"),
                _ => {}
            }
            match i.kind {
                OpKind::Def | OpKind::Use | OpKind::Early if i.subject >= nv => {
                    l.push("rin: absent value")
                }
                OpKind::DefG | OpKind::UseG | OpKind::EarlyG if i.subject >= ng => {
                    l.push("rin: absent value group")
                }
                _ => {}
            }
        }
    }
    for b in &s.blocks {
        if b.idom.is_some_and(|d| d >= nb) {
            l.push("block: absent idom");
        }
    }
    for (rows, texts) in [
        (&s.succs, ["succ: absent block", "succ: absent member", "succ: member twice"]),
        (&s.preds, ["pred: absent block", "pred: absent member", "pred: member twice"]),
    ] {
        for (b, list) in rows {
            if *b >= nb {
                l.push(texts[0]);
            }
            if list.iter().any(|&x| x >= nb) {
                l.push(texts[1]);
            }
            if dup(list) {
                l.push(texts[2]);
            }
        }
    }
    for p in &s.params {
        if p.block >= nb {
            l.push("param: absent block");
        }
        if p.value >= nv {
            l.push("param: absent value");
        }
        if !place(p.place) {
            l.push("param: absent place");
        }
    }
    for o in &s.ops {
        if o.inst >= ni {
            l.push("op: absent instruction");
        }
        if !place(o.place) {
            l.push("op: absent place");
        }
        match o.con {
            Con::Class(c) if c >= nc => l.push("op: absent class"),
            Con::Fixed(r) if r >= nr => l.push("op: absent fixed register"),
            _ => {}
        }
        match o.kind {
            OpKind::Fixed => {}
            k if k.is_group() => {
                if o.subject >= ng {
                    l.push("op: absent value group");
                }
            }
            _ => {
                if o.subject >= nv {
                    l.push("op: absent value");
                }
            }
        }
    }
    for (i, list) in &s.clobs {
        if *i >= ni {
            l.push("clob: absent instruction");
        }
        if list.iter().any(|u| units.binary_search(u).is_err()) {
            l.push("clob: absent unit");
        }
        if dup(list) {
            l.push("clob: unit twice");
        }
    }
    for &(i, e) in &s.edits {
        if i >= ni {
            l.push("edit: absent instruction");
        }
        if let Edit::Irem { inputs, .. } = e {
            if inputs.iter().any(|&p| !place(p)) {
                l.push("irem: absent input");
            }
        }
        let (places, value): (Vec<Place>, u32) = match e {
            Edit::Move { to, from, value } => (vec![to, from], value),
            Edit::Remat { to, value } | Edit::Irem { to, value, .. } => (vec![to], value),
            Edit::Espill { to, from } | Edit::Ereload { to, from } => (vec![to, from], u32::MAX),
            Edit::None => (vec![], u32::MAX),
        };
        if places.into_iter().any(|p| !place(p)) {
            l.push("edit: absent place");
        }
        if value != u32::MAX && value >= nv {
            l.push("edit: absent value");
        }
    }
    l.sort();
    l.dedup();
    l
}

fn entry_and_empty(s: &Sheet) -> Broken {
    let mut l = vec![];
    if s.blocks.iter().all(|b| !b.entry) {
        l.push(("no entry", None));
    }
    for (b, x) in s.blocks.iter().enumerate() {
        if x.insts == 0 {
            l.push(("empty block", Some(b as u32)));
        }
    }
    l
}

/// From, to.
fn pairs(rows: &[(u32, Vec<u32>)]) -> Vec<(u32, u32)> {
    rows.iter().flat_map(|(b, x)| x.iter().map(move |&y| (*b, y))).collect()
}

fn disagree(s: &Sheet) -> Broken {
    let (succs, preds) = (pairs(&s.succs), pairs(&s.preds));
    let mut l = vec![];
    for &(b, t) in &succs {
        if !preds.contains(&(t, b)) {
            l.push(("successor does not name it back", Some(b)));
        }
    }
    for &(b, p) in &preds {
        if !succs.contains(&(p, b)) {
            l.push(("predecessor does not name it back", Some(b)));
        }
    }
    l
}

/// The lists agree from here on: one graph.
fn edges(s: &Sheet) -> Broken {
    let edges = pairs(&s.succs);
    let outs = |b: u32| edges.iter().filter(|e| e.0 == b).count();
    let ins = |b: u32| edges.iter().filter(|e| e.1 == b).count();
    let mut l = vec![];
    for &(a, b) in &edges {
        if s.blocks[b as usize].entry {
            l.push(("entry with predecessor", Some(b)));
        }
        if outs(a) > 1 && ins(b) > 1 {
            l.push(("several successors meet several predecessors", Some(a)));
        }
    }
    l
}

fn not_smaller(s: &Sheet) -> Broken {
    let mut l = vec![];
    for (b, p) in &s.preds {
        if p.len() == 1 && p[0] >= *b {
            l.push(("sole predecessor not smaller", Some(*b)));
        }
    }
    for (b, x) in s.blocks.iter().enumerate() {
        if x.idom.is_some_and(|d| d as usize >= b) {
            l.push(("idom not smaller", Some(b as u32)));
        }
    }
    l
}

fn not_reached(s: &Sheet) -> Broken {
    let edges = pairs(&s.succs);
    let n = s.blocks.len() as u32;
    let mut seen: Vec<u32> = (0..n).filter(|&b| s.blocks[b as usize].entry).collect();
    let mut at = 0;
    while at < seen.len() {
        for &(a, b) in &edges {
            if a == seen[at] && !seen.contains(&b) {
                seen.push(b);
            }
        }
        at += 1;
    }
    (0..n).filter(|b| !seen.contains(b)).map(|b| ("not reached", Some(b))).collect()
}

fn operands(s: &Sheet) -> Vec<&'static str> {
    let mut l = vec![];
    for o in &s.ops {
        let first = s.ops.iter().position(|x| x.inst == o.inst).unwrap();
        let count = s.ops.iter().filter(|x| x.inst == o.inst).count();
        let mut class = None;
        match o.con {
            Con::Class(c) => {
                class = Some(c);
                match o.place {
                    Place::Reg(r) if !s.classes[c as usize].regs.contains(&r) => {
                        l.push(if o.kind.is_group() {
                            "group's first register not in class"
                        } else {
                            "register not in class"
                        })
                    }
                    Place::Slot(_) if !s.classes[c as usize].slots => {
                        l.push("slot without slots flag")
                    }
                    _ => {}
                }
            }
            Con::Fixed(r) => {
                if o.place != Place::Reg(r) {
                    l.push("fixed place elsewhere");
                }
            }
            Con::Reuse(i) => {
                if !matches!(o.kind, OpKind::Def | OpKind::DefG) {
                    l.push("reuse on another kind");
                } else if i as usize >= count {
                    l.push("reuse of an absent operand");
                } else {
                    let u = s.ops[first + i as usize];
                    match (o.kind, u.kind) {
                        (OpKind::Def, OpKind::Use) | (OpKind::DefG, OpKind::UseG) => {}
                        _ => l.push("reuse of a wrong kind"),
                    }
                    match u.con {
                        Con::Class(c) => class = Some(c),
                        _ => l.push("reused operand without class"),
                    }
                    if u.place != o.place {
                        l.push("reused operand elsewhere");
                    }
                }
            }
        }
        if o.kind == OpKind::Fixed && !matches!(o.con, Con::Fixed(_)) {
            l.push("fixed without f");
        }
        if o.kind.is_group() {
            if matches!(o.con, Con::Fixed(_)) {
                l.push("group with f");
            }
            match (o.place, class) {
                (Place::Slot(_), _) => l.push("group in a slot"),
                (Place::Reg(r), Some(c)) => {
                    match s.groups.iter().find(|g| g.class == c && g.regs[0] == r) {
                        None => l.push("begins no group of the class"),
                        Some(g) if g.regs.len() != s.vgroups[o.subject as usize].len() => {
                            l.push("group of another length")
                        }
                        _ => {}
                    }
                }
                _ => {}
            }
        }
    }
    l.sort();
    l.dedup();
    l
}

fn edits(s: &Sheet) -> Vec<&'static str> {
    let mut l = vec![];
    if s.edits.windows(2).any(|w| w[1].0 < w[0].0) {
        l.push("edits out of order");
    }
    // The emergency edits of each block, in list order.
    let of = s.inst_blocks();
    for b in 0..s.blocks.len() as u32 {
        let mine: Vec<Edit> = s
            .edits
            .iter()
            .filter(|e| of[e.0 as usize] == b)
            .map(|e| e.1)
            .filter(|e| matches!(e, Edit::Espill { .. } | Edit::Ereload { .. }))
            .collect();
        let shaped = |e: &Edit| match *e {
            Edit::Espill { to: Place::Slot(x), from: Place::Reg(r) } => Some((true, x, r)),
            Edit::Ereload { to: Place::Reg(r), from: Place::Slot(x) } => Some((false, x, r)),
            _ => None,
        };
        for e in &mine {
            let Some((_, x, r)) = shaped(e) else {
                l.push("emergency edit between wrong places");
                continue;
            };
            if s.homes.iter().any(|h| *h == Some(x)) {
                l.push("pair's slot is a home");
            }
            let own = &s.regs[r as usize].units;
            let holders = |u: &u32| s.regs.iter().filter(|g| g.units.contains(u)).count();
            if own.iter().any(|u| holders(u) > 1) {
                l.push("pair's register shares a unit");
            }
        }
        let seq: Vec<_> = mine.iter().filter_map(shaped).collect();
        if seq.len() == mine.len() {
            for pair in seq.chunks(2) {
                match pair {
                    [(true, x, r), (false, y, q)] if x == y && r == q => {}
                    [(true, ..), (false, ..)] => l.push("pair of two slots or registers"),
                    [(true, ..)] => l.push("pair not closed in its block"),
                    _ => l.push("not alternating, spill first"),
                }
            }
        }
    }
    l.sort();
    l.dedup();
    l
}

/// The rules of refusal 13.
pub const RECIPE_RULES: [&str; 6] = [
    "input of a defining kind",
    "input with a reuse constraint",
    "group input without a class",
    "group input at the reused index",
    "fixed input without f",
    "fixed input at the reused index",
];

fn recipes(s: &Sheet) -> Vec<&'static str> {
    let mut broken = [false; 6];
    for r in &s.recipes {
        for i in &r.inputs {
            broken[0] |= !matches!(i.kind, OpKind::Use | OpKind::UseG | OpKind::Fixed);
            broken[1] |= matches!(i.con, Con::Reuse(_));
            broken[2] |= i.kind == OpKind::UseG && matches!(i.con, Con::Fixed(_));
            broken[4] |= i.kind == OpKind::Fixed && matches!(i.con, Con::Class(_));
        }
        if let Con::Reuse(i) = r.con {
            let kind = r.inputs.get(i as usize).map(|i| i.kind);
            broken[3] |= kind == Some(OpKind::UseG);
            broken[5] |= kind == Some(OpKind::Fixed);
        }
    }
    (0..6).filter(|&k| broken[k]).map(|k| RECIPE_RULES[k]).collect()
}

/// The row of a block by the sheet's bytes, counted from 1.
fn row(sheet: &[u8], b: u32) -> u32 {
    let head = format!("block,{b},");
    let rows = sheet.split(|&x| x == b'\n');
    1 + rows.take_while(|r| !r.starts_with(head.as_bytes())).count() as u32
}

/// The refusal, 100 times the row plus the number, and the rules that are broken, by this
/// file.
fn refusal(c: &Case) -> (u32, Vec<String>) {
    if c.level > 3 {
        return (7, vec!["level".into()]);
    }
    if c.sweep > 1 {
        return (7, vec!["sweep flag".into()]);
    }
    match read(&c.sheet) {
        Err(what) => (1, vec![what]),
        Ok(s) => {
            let (n, block, l) = why(&s);
            let row = block.map_or(0, |b| row(&c.sheet, b));
            (100 * row + n, l.into_iter().map(String::from).collect())
        }
    }
}

/// Counts what refuses a file of cases, and holds the two writings together.
pub fn report(cases: &[Case]) -> bool {
    let mut table: BTreeMap<(u32, String), (usize, usize)> = BTreeMap::new();
    let mut bad = 0;
    for (k, c) in cases.iter().enumerate() {
        let first = run::accept(c).err().unwrap_or(0);
        let (sum, list) = refusal(c);
        if sum != first {
            bad += 1;
            println!("case {k}: accept.rs gives {first}, the second writing {sum} {list:?}");
        }
        for w in &list {
            let t = table.entry((sum % 100, w.clone())).or_default();
            t.0 += 1;
            t.1 += (list.len() == 1) as usize;
        }
    }
    println!("refusal: rule{:36}cases   it alone", "");
    for ((n, w), (all, alone)) in &table {
        println!("{n:>2}: {w:46} {all:>6} {alone:>8}");
    }
    println!("{} cases, {bad} on which the two writings of the refusals differ", cases.len());
    bad == 0
}
