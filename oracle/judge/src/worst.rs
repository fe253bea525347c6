//! Sheets that press on one step each, and the library's time on them beside the Rust's.
//! A sheet stands here because some form of the code took far longer on it than on
//! others of its size, or because nothing else shows a step at its limit.

use std::ops::Range;

use crate::Clean;
use crate::bench::Used;
use crate::clock;
use crate::frames::Case;
use crate::sheet::*;

use Con::{Class as InClass, Fixed as InReg, Reuse};
use OpKind::{Def, DefG, Early, EarlyG, Fixed, Use, UseG};
use Place::{Reg as R, Slot as S};

pub struct Worst {
    pub name: &'static str,
    pub case: Case,
}

pub fn all() -> Vec<Worst> {
    let mut all = vec![];
    let mut add = |name, level, sweep, sheet: Sheet| {
        all.push(Worst { name, case: case(level, sweep, sheet.print()) });
    };
    add("the smallest sheet", 1, 1, one_block(1));
    add("512 instructions in 64 blocks, nothing else", 3, 1, chain(64, 8));
    add("64 entries", 3, 1, entries());
    add("2,048 operands at one instruction, 128 reused", 1, 0, reused());
    add("1,984 folds at one instruction", 1, 0, folds());
    add("1,984 uses that find no register to fold", 1, 0, no_folds());
    add("operands of every kind at one instruction", 1, 1, every_kind());
    add("512 instructions with 4 operands, 3 in memory", 1, 1, memory_uses());
    add("2,048 definitions, 128 registers, 256 values", 1, 1, definitions());
    add("2,048 definitions in a loop, 128 registers", 3, 1, in_a_loop(definitions()));
    add("2,048 definitions in home slots", 1, 1, home_definitions());
    add("2,048 operands of kind `fixed`", 1, 0, fixed());
    add("a register over 127 others, defined in turn", 1, 0, wide_register());
    add("2,048 uses in slots, no register holds any", 1, 1, uses(S));
    add("2,048 uses in registers", 1, 1, uses(R));
    add("32 groups, 2,048 definitions of one", 1, 0, groups(DefG));
    add("32 groups, 2,048 uses of one", 1, 0, groups(UseG));
    add("2,048 definitions of a group of 128", 1, 0, long_groups());
    add("32 value groups of 250 values", 1, 0, value_groups());
    add("16 classes of 128 registers", 1, 0, classes());
    add("128 registers of 128 units", 1, 0, units());
    add("clobbers of 127 units at 100 instructions", 1, 0, clobbers());
    add("3,600 parameters", 1, 0, params());
    add("1,024 edits at one instruction", 1, 0, edits(reload));
    add("1,024 edits of kind `none`", 1, 1, edits(|_| Edit::None));
    add("1,024 moves from slot to slot", 1, 1, edits(between_slots));
    add("1,024 remats into slots", 1, 1, edits(remat));
    add("1,024 moves, each removed", 1, 1, removed());
    add("1,024 moves into a register of 128 units, each removed", 1, 0, into_wide());
    add("a value in 127 registers, dropped", 1, 0, spread(false));
    add("a value in 127 memory registers", 1, 0, spread(true));
    add("512 emergency pairs of a register of 128 units", 1, 0, wide_pairs());
    add("512 emergency pairs among 128 registers, 256 homes", 1, 1, pairs());
    add("idoms in a chain of 64, 1,024 spills to home slots", 1, 0, idoms());
    add("a block with 62 successors, all followed by one", 3, 1, switch(0));
    add("128 pairs handed on to 62 successors, then to one", 3, 1, switch(128));
    add("blocks reached from the highest down", 3, 1, downward());
    add("the preparing walk loses one pair a round", 3, 0, one_pair_a_round());
    add("the preparing walk passes 2,000 definitions a round", 3, 0, past_definitions());
    add("loops 20 deep, a clobber in each", 3, 1, nested());
    add("the sweep brings one slot a round through a loop", 0, 1, one_slot_a_round());
    add("the sweep brings one slot a round past 2,000 operands", 0, 1, past_operands());
    all.extend(refused());
    all
}

fn case(level: u32, sweep: u32, sheet: Vec<u8>) -> Case {
    Case { level, sweep, cap: MAX_SHEET, sheet }
}

// ---- parts of sheets ---------------------------------------------------------------

/// Registers of one unit each, and a class of all of them.
fn machine(slots: u32, regs: u32) -> Sheet {
    Sheet {
        slots,
        regs: (0..regs).map(|u| Reg { memory: false, units: vec![u] }).collect(),
        classes: vec![Class { slots: true, regs: (0..regs).collect() }],
        ..Sheet::default()
    }
}

fn homeless(values: usize) -> Vec<Option<u32>> {
    vec![None; values]
}

/// The home of value v is slot v, counted round.
fn at_home(values: u32, slots: u32) -> Vec<Option<u32>> {
    (0..values).map(|v| Some(v % slots)).collect()
}

fn block(insts: u32) -> Vec<Block> {
    vec![Block { insts, idom: None, entry: true }]
}

/// Blocks of so many instructions each, block 0 the entry.
fn graph(s: Sheet, insts: &[u32], edges: &[(u32, u32)], idom: impl Fn(u32) -> u32) -> Sheet {
    let row =
        |b: usize| Block { insts: insts[b], idom: (b > 0).then(|| idom(b as u32)), entry: b == 0 };
    let rows = |list: &dyn Fn(u32) -> Vec<u32>| -> Vec<(u32, Vec<u32>)> {
        let all = (0..insts.len() as u32).map(|b| (b, list(b)));
        all.filter(|(_, l)| !l.is_empty()).collect()
    };
    let out = |b| edges.iter().filter(|e| e.0 == b).map(|e| e.1).collect();
    let into = |b| edges.iter().filter(|e| e.1 == b).map(|e| e.0).collect();
    let blocks = (0..insts.len()).map(row).collect();
    Sheet { blocks, succs: rows(&out), preds: rows(&into), ..s }
}

/// The instructions of each block.
fn spans(insts: &[u32]) -> Vec<Range<u32>> {
    let mut end = 0;
    let span = |n: &u32| {
        end += n;
        end - n..end
    };
    insts.iter().map(span).collect()
}

fn op(inst: u32, kind: OpKind, subject: u32, con: Con, place: Place) -> Op {
    Op { inst, kind, subject, con, place }
}

fn class_op(inst: u32, kind: OpKind, subject: u32, place: Place) -> Op {
    op(inst, kind, subject, InClass(0), place)
}

fn moved(to: Place, from: Place, value: u32) -> Edit {
    Edit::Move { to, from, value }
}

// ---- few rows ----------------------------------------------------------------------

fn one_block(insts: u32) -> Sheet {
    Sheet { blocks: block(insts), ..Sheet::default() }
}

fn chain(blocks: u32, insts: u32) -> Sheet {
    let edges: Vec<_> = (1..blocks).map(|b| (b - 1, b)).collect();
    graph(Sheet::default(), &vec![insts; blocks as usize], &edges, |b| b - 1)
}

fn entries() -> Sheet {
    let entry = Block { insts: 8, idom: None, entry: true };
    Sheet { blocks: vec![entry; 64], ..Sheet::default() }
}

/// The sheet's instructions but the first and the last as a loop.
fn in_a_loop(s: Sheet) -> Sheet {
    let insts = s.num_insts() as u32;
    graph(s, &[1, insts - 2, 1], &[(0, 1), (1, 2), (2, 1)], |b| b - 1)
}

// ---- operands ----------------------------------------------------------------------

fn reused() -> Sheet {
    let uses = (0..1920).map(|k| class_op(0, Use, k % 64, S(k % 64)));
    let defs = (0..128).map(|k| op(0, Def, k % 64, Reuse(k), S(k % 64)));
    let ops = uses.chain(defs).collect();
    Sheet { homes: homeless(64), blocks: block(1), ops, ..machine(64, 8) }
}

fn folds() -> Sheet {
    let defs = (0..64).map(|r| class_op(0, Def, r, R(r)));
    let uses = (0..1984).map(|k| class_op(1, Use, k % 64, S(k % 64)));
    let ops = defs.chain(uses).collect();
    Sheet { homes: homeless(64), blocks: block(2), ops, ..machine(64, 64) }
}

/// The value is in a register, but not in one of the class.
fn no_folds() -> Sheet {
    let mut s = folds();
    s.classes.push(Class { slots: true, regs: vec![63] });
    for o in &mut s.ops[64..] {
        (o.subject, o.con) = (3, InClass(1));
    }
    s
}

fn every_kind() -> Sheet {
    let kinds = |k: u32| match k % 8 {
        0 => class_op(0, Use, k % 200, S(k % 64)),
        1 => class_op(0, UseG, 0, R(k % 32)),
        2 => op(0, Use, k % 200, InReg(k % 128), R(k % 128)),
        3 => op(0, Fixed, 0, InReg(k % 128), R(k % 128)),
        4 => class_op(0, Early, k % 200, R(k % 128)),
        5 => class_op(0, EarlyG, 0, R(k % 32)),
        6 if k < 1024 => op(0, Def, k % 200, Reuse(k % 128 - 6), S((k % 128 - 6) % 64)),
        7 if k < 1024 => op(0, DefG, 0, Reuse(k % 128 - 6), R((k % 128 - 6) % 32)),
        _ => class_op(0, Def, k % 200, S(k % 64)),
    };
    Sheet {
        homes: at_home(202, 64),
        groups: (0..32).map(|g| Group { class: 0, regs: vec![g, g + 32] }).collect(),
        vgroups: vec![vec![200, 201]],
        blocks: block(1),
        ops: (0..2048).map(kinds).collect(),
        ..machine(64, 128)
    }
}

fn memory_uses() -> Sheet {
    let four = |i: u32| {
        [
            class_op(i, Use, i * 3 % 256, S(i % 64)),
            class_op(i, Use, i * 5 % 256, S((i + 1) % 64)),
            class_op(i, Def, i * 7 % 256, R(i % 128)),
            class_op(i, Use, i * 11 % 256, S((i + 2) % 64)),
        ]
    };
    let ops = (0..512).flat_map(four).collect();
    Sheet { homes: at_home(256, 64), blocks: block(512), ops, ..machine(64, 128) }
}

fn definitions() -> Sheet {
    let ops = (0..2048).map(|k| class_op(k / 4, Def, k * 5 % 256, R(k * 37 % 128))).collect();
    Sheet { homes: at_home(256, 64), blocks: block(512), ops, ..machine(64, 128) }
}

fn wide_register() -> Sheet {
    let mut s = machine(0, 127);
    s.regs.push(Reg { memory: false, units: (0..127).collect() });
    s.classes[0].regs.push(127);
    let ops = (0..2048).map(|k| class_op(k / 128, Def, k % 128, R(k % 128))).collect();
    Sheet { homes: homeless(128), blocks: block(16), ops, ..s }
}

fn home_definitions() -> Sheet {
    let ops = (0..2048).map(|k| class_op(k / 4, Def, k % 256, S(k % 64))).collect();
    Sheet { homes: at_home(256, 64), blocks: block(512), ops, ..machine(64, 128) }
}

fn uses(place: fn(u32) -> Place) -> Sheet {
    let ops = (0..2048).map(|k| class_op(k / 4, Use, k * 5 % 256, place(k % 64))).collect();
    Sheet { homes: at_home(256, 64), blocks: block(512), ops, ..machine(64, 128) }
}

fn fixed() -> Sheet {
    let ops = (0..2048).map(|k| op(k / 4, Fixed, 0, InReg(k % 128), R(k % 128))).collect();
    Sheet { blocks: block(512), ops, ..machine(0, 128) }
}

// ---- groups, classes, units --------------------------------------------------------

fn groups(kind: OpKind) -> Sheet {
    Sheet {
        groups: (0..32).map(|g| Group { class: 0, regs: vec![g] }).collect(),
        homes: homeless(1),
        vgroups: vec![vec![0]],
        blocks: block(1),
        ops: vec![class_op(0, kind, 0, R(31)); 2048],
        ..machine(0, 33)
    }
}

fn long_groups() -> Sheet {
    let round = |g: u32| Group { class: 0, regs: (0..128).map(|k| (g + k) % 128).collect() };
    Sheet {
        groups: (0..32).map(round).collect(),
        homes: at_home(256, 64),
        vgroups: vec![(0..128).collect(), (128..256).collect()],
        blocks: block(1),
        ops: (0..2048).map(|k| class_op(0, DefG, k % 2, R(k % 32))).collect(),
        ..machine(64, 128)
    }
}

fn value_groups() -> Sheet {
    Sheet { homes: homeless(250), vgroups: vec![(0..250).collect(); 32], ..one_block(1) }
}

fn classes() -> Sheet {
    let mut s = machine(0, 128);
    s.classes = vec![s.classes[0].clone(); 16];
    let ops = (0..2048).map(|k| op(0, Use, 0, InClass(k % 16), R(127))).collect();
    Sheet { homes: homeless(1), blocks: block(1), ops, ..s }
}

fn units() -> Sheet {
    let wide = Reg { memory: false, units: (0..128).collect() };
    let edits = (0..350).map(|k| (0, moved(R(k % 128), S(k % 4), k % 100))).collect();
    Sheet { slots: 4, regs: vec![wide; 128], homes: homeless(100), edits, ..one_block(1) }
}

fn clobbers() -> Sheet {
    Sheet {
        homes: homeless(1),
        blocks: block(100),
        ops: (0..100).map(|i| op(i, Def, 0, InReg(0), R(0))).collect(),
        clobs: (0..100).map(|i| (i, (1..128).collect())).collect(),
        ..machine(0, 128)
    }
}

fn params() -> Sheet {
    let params = (0..3600).map(|k| Param { block: 0, value: k % 256, place: R(k % 64) }).collect();
    Sheet { homes: at_home(256, 64), blocks: block(1), params, ..machine(64, 64) }
}

// ---- edits -------------------------------------------------------------------------

fn reload(k: u32) -> Edit {
    moved(R(k * 37 % 128), S(k * 13 % 64), k * 5 % 256)
}

fn between_slots(k: u32) -> Edit {
    moved(S(k * 37 % 64), S(k % 64), k * 5 % 256)
}

fn remat(k: u32) -> Edit {
    Edit::Remat { to: S(k * 37 % 64), value: k * 5 % 256 }
}

/// 1,024 of them, with a value in each register.
fn edits(edit: fn(u32) -> Edit) -> Sheet {
    Sheet {
        homes: at_home(256, 64),
        blocks: block(2),
        ops: (0..128).map(|r| op(0, Def, r, InReg(r), R(r))).collect(),
        edits: (0..1024).map(|k| (1, edit(k))).collect(),
        ..machine(64, 128)
    }
}

fn removed() -> Sheet {
    Sheet { homes: homeless(128), ..edits(|k| moved(R(k % 128), S(k % 64), k % 128)) }
}

/// Defined in register 0, moved to all others, and again; nothing but memory registers
/// hold it where `memory`.
fn spread(memory: bool) -> Sheet {
    let mut s = machine(0, 128);
    s.regs.iter_mut().for_each(|r| r.memory = memory);
    Sheet {
        homes: homeless(1),
        blocks: block(8),
        ops: (0..8).map(|i| class_op(i, Def, 0, R(0))).collect(),
        edits: (127..1024).map(|k| (k / 128, moved(R(k % 128), R(0), 0))).collect(),
        ..s
    }
}

/// A register of 128 units, and 1,024 edits after its definition.
fn wide(edit: fn(u32) -> Edit) -> Sheet {
    Sheet {
        slots: 1,
        regs: vec![Reg { memory: false, units: (0..128).collect() }],
        homes: homeless(1),
        blocks: block(2),
        ops: vec![op(0, Def, 0, InReg(0), R(0))],
        edits: (0..1024).map(|k| (1, edit(k))).collect(),
        ..Sheet::default()
    }
}

fn emergency(k: u32) -> Edit {
    match k % 2 {
        0 => Edit::Espill { to: S(0), from: R(0) },
        _ => Edit::Ereload { to: R(0), from: S(0) },
    }
}

fn into_wide() -> Sheet {
    wide(|_| moved(R(0), S(0), 0))
}

fn wide_pairs() -> Sheet {
    wide(emergency)
}

fn pairs() -> Sheet {
    Sheet { homes: (0..256).map(|v| Some(1 + v % 63)).collect(), ..edits(emergency) }
}

fn idoms() -> Sheet {
    let spill = |inst| move |k: u32| (inst, moved(S(k % 64), R(0), k % 64));
    let edits = (0..64).map(spill(0)).chain((0..960).map(spill(63))).collect();
    let s = chain(64, 1);
    Sheet { slots: 64, regs: machine(0, 1).regs, homes: at_home(64, 64), edits, ..s }
}

// ---- blocks ------------------------------------------------------------------------

fn switch(pairs: u32) -> Sheet {
    let edges: Vec<_> = (1..63).flat_map(|b| [(0, b), (b, 63)]).collect();
    let ops = (0..pairs).map(|r| class_op(0, Def, r, R(r))).collect();
    let s = Sheet { homes: homeless(pairs as usize), ops, ..machine(0, pairs) };
    graph(s, &[1; 64], &edges, |_| 0)
}

/// 31 goes to 30, that to 29, and so on; 32 comes after 1 and goes back to all of them.
fn downward() -> Sheet {
    let mut edges: Vec<_> = (1..31).flat_map(|b| [(b + 1, b), (32, b + 32), (b + 32, b)]).collect();
    edges.push((1, 32));
    let ops = (0..128).map(|r| class_op(31, Def, r, R(r))).collect();
    let s = Sheet { homes: homeless(128), ops, ..machine(0, 128) };
    let mut s = graph(s, &[1; 63], &edges, |_| 0);
    s.blocks[31] = Block { insts: 1, idom: None, entry: true };
    s
}

/// 31 blocks in a row, each with a way back to the first of them that clobbers a unit.
fn one_pair_a_round() -> Sheet {
    let row = 1..=31;
    let mut edges = vec![(0, 1)];
    edges.extend((1..31).map(|b| (b, b + 1)));
    edges.extend(row.clone().flat_map(|b| [(b, b + 31), (b + 31, 1)]));
    let insts: Vec<u32> = (0..63).map(|b| if row.contains(&b) { 8 } else { 1 }).collect();
    let spans = spans(&insts);
    let mut s = Sheet { homes: homeless(128), ..machine(8, 64) };
    s.ops.extend((0..40).map(|v| class_op(0, Def, v, R(v))));
    for b in row {
        for (k, i) in spans[b as usize].clone().enumerate() {
            let k = k as u32;
            let v = (b * 7 + k) % 40;
            s.ops.push(class_op(i, Use, v, R(v)));
            s.ops.push(class_op(i, Def, 64 + k, R(48 + k)));
            s.ops.push(class_op(i, Use, 64 + k, S(0)));
            s.edits.push((i, moved(R(56 + k % 4), R(k % 4), k % 4)));
            s.edits.push((i, moved(R(60 + k % 4), S(k), 100 + k % 4)));
        }
        s.clobs.push((spans[b as usize + 31].start, vec![b]));
    }
    graph(s, &insts, &edges, |b| if b <= 31 { b - 1 } else { b - 31 })
}

/// The same without its edits, all definitions at the first instruction of the row.
fn past_definitions() -> Sheet {
    let mut s = one_pair_a_round();
    s.edits.clear();
    s.ops.truncate(40);
    s.ops.extend((0..2000).map(|k| class_op(1, Def, 100, R(60 + k % 4))));
    s
}

/// Loop heads 1 to 20; after the innermost, each loop's exit and its way back by turns.
fn nested() -> Sheet {
    let exit = |depth: u32| 21 + 2 * (20 - depth);
    let mut edges: Vec<_> = (1..=20).map(|b| (b - 1, b)).collect();
    let mut clobs = vec![];
    for depth in (1..=20).rev() {
        let (x, inner) = (exit(depth), if depth == 20 { 20 } else { exit(depth + 1) });
        edges.extend([(inner, x), (x, x + 1), (x + 1, depth)]);
        clobs.push((x + 1, vec![depth]));
    }
    let idom = |b: u32| match b {
        0..=21 => b - 1,
        _ if b % 2 == 0 => b - 1,
        _ => b - 2,
    };
    let ops = (0..64).map(|v| class_op(0, Def, v, R(v))).collect();
    let s = Sheet { homes: homeless(64), ops, clobs, ..machine(4, 64) };
    graph(s, &[1; 61], &edges, idom)
}

/// 60 blocks in a loop; in the midst s1 gets s0's content, s2 what s1 had, and so on.
fn one_slot_a_round() -> Sheet {
    let mut edges: Vec<_> = (1..=60).map(|b| (b - 1, b)).collect();
    edges.extend([(60, 61), (60, 62), (61, 1)]);
    let insts: Vec<u32> = (0..63).map(|b| if (1..=60).contains(&b) { 8 } else { 1 }).collect();
    let spans = spans(&insts);
    let midst = spans[30].start;
    let mut s = Sheet { homes: homeless(1), ..machine(64, 1) };
    for i in spans[1].start..spans[60].end {
        s.ops.extend([Use, Def, Use, Use].map(|kind| class_op(i, kind, 0, R(0))));
        if i == midst {
            s.edits.extend((1..64).rev().map(|k| (i, moved(S(k), S(k - 1), 0))));
        } else {
            s.edits.push((i, moved(R(0), R(0), 0)));
        }
    }
    s.ops.push(class_op(spans[62].start, Use, 0, S(63)));
    graph(s, &insts, &edges, |b| if b == 62 { 60 } else { b - 1 })
}

fn past_operands() -> Sheet {
    let mut s = Sheet { homes: homeless(1), ..machine(64, 1) };
    s.ops.extend([class_op(1, Use, 0, R(0)); 2000]);
    s.ops.push(class_op(3, Use, 0, S(63)));
    s.edits.extend((1..64).rev().map(|k| (1, moved(S(k), S(k - 1), 0))));
    let edges = [(0, 1), (1, 2), (1, 3), (2, 1)];
    graph(s, &[1; 4], &edges, |b| if b == 1 { 0 } else { 1 })
}

// ---- refused -----------------------------------------------------------------------

/// Each by its last row, or by all of it.
fn refused() -> Vec<Worst> {
    let mut all = vec![];
    let mut add = |name, case| all.push(Worst { name, case });
    let none = || Class { slots: false, regs: vec![] };
    let mut broken = memory_uses().print();
    broken.pop();
    add("refused with 1: the last byte of 2,048 operands is missing", case(1, 1, broken));
    let long = Sheet { classes: vec![none(); 5000], ..one_block(1) };
    add("refused with 1: over 65,536 bytes", case(1, 1, long.print()));
    let many = Sheet { classes: vec![none(); 4600], ..one_block(1) };
    add("refused with 2: 4,600 classes", case(1, 1, many.print()));
    let regs = vec![Reg { memory: false, units: vec![1; 32_000] }];
    add(
        "refused with 3: a row of 32,000 units",
        case(1, 1, Sheet { regs, ..one_block(1) }.print()),
    );
    let mut sheet = memory_uses();
    sheet.classes.push(none());
    sheet.ops[2047].con = InClass(1);
    add("refused with 5: the last of 2,048 operands", case(1, 1, sheet.print()));
    let mut sheet = pairs();
    sheet.edits.pop();
    add("refused with 6: the last of 512 emergency pairs", case(1, 1, sheet.print()));
    let mut short = case(1, 0, edits(reload).print());
    short.cap = 20_000;
    add("refused with 8: 1,024 edits", short);
    all
}

// ---- the times ---------------------------------------------------------------------

/// A measured stretch has at least so many ns.
const STRETCH: u64 = 100_000;

/// The best of so many stretches for each of the two, by turns; ns a call.
fn best(rounds: usize, sides: &mut [&mut dyn FnMut()]) -> Vec<u64> {
    let mut calls = vec![];
    for f in sides.iter_mut() {
        f();
        calls.push(1 + STRETCH / clock::of(&mut *f).max(1));
    }
    let mut best = vec![u64::MAX; sides.len()];
    for _ in 0..rounds {
        for (k, f) in sides.iter_mut().enumerate() {
            let time = clock::of(|| (0..calls[k]).for_each(|_| f()));
            best[k] = best[k].min(time / calls[k]);
        }
    }
    best
}

/// The whole call with the Rust and with the library, both with used buffers, in ns.
pub fn report(rounds: usize, csv: bool, clean: Option<Clean>) -> Result<bool, String> {
    let clean = clean.ok_or("worst: no library is linked")?;
    if csv {
        println!("name,level,sweep,bytes,rust_ns,library_ns");
    } else {
        println!("{:60} {:>6} {:>10} {:>10} {:>6}", "sheet", "bytes", "Rust", "library", "ratio");
    }
    let (mut rust, mut library) = (Used::new(), Used::new());
    for Worst { name, case: c } in all() {
        let times = best(rounds, &mut [&mut || rust.whole(&c), &mut || library.clean(clean, &c)]);
        let (r, l) = (times[0], times[1]);
        let bytes = c.sheet.len();
        if csv {
            println!("\"{name}\",{},{},{bytes},{r},{l}", c.level, c.sweep);
        } else {
            println!("{name:60} {bytes:>6} {r:>10} {l:>10} {:>6.2}", l as f64 / r as f64);
        }
    }
    Ok(true)
}
