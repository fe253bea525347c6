//! All sheets of K items over a fixed small machine: each instruction has one
//! operand, one clobber, or one edit before it. For comparing exhaustively.

use crate::frames::{self, Case};
use crate::requests;
use crate::sheet::*;

#[derive(Clone, Copy)]
enum Item {
    Op(Op),
    Edit(Edit),
    Clob(u32),
}

/// r0 plain, r1 memory, s0 home of both values, s1 of none.
fn items() -> Vec<Item> {
    let places = [Place::Reg(0), Place::Reg(1), Place::Slot(0), Place::Slot(1)];
    let mut l = vec![];
    for subject in 0..2 {
        for place in places {
            for kind in [OpKind::Def, OpKind::Use, OpKind::Early] {
                l.push(Item::Op(Op { inst: 0, kind, subject, con: Con::Class(0), place }));
            }
            l.push(Item::Edit(Edit::Remat { to: place, value: subject }));
            for from in places {
                l.push(Item::Edit(Edit::Move { to: place, from, value: subject }));
            }
        }
    }
    l.push(Item::Clob(0));
    l.push(Item::Clob(1));
    if requests::recipes() {
        for (value, to) in (0..2).flat_map(|v| places.map(|p| (v, p))) {
            let inputs = Inputs::new(&[Place::Slot(0)]);
            l.push(Item::Edit(Edit::Irem { to, value, inputs }));
        }
    }
    l
}

/// Value 0 from value 1, apart from it; value 1 from value 0, in its place.
fn recipes() -> Vec<Recipe> {
    let input = |subject| Rin { kind: OpKind::Use, subject, con: Con::Class(0) };
    let apart = Recipe { value: 0, con: Con::Class(0), overlap: false, inputs: vec![input(1)] };
    let reused = Recipe { value: 1, con: Con::Reuse(0), overlap: false, inputs: vec![input(0)] };
    vec![apart, reused]
}

pub const SHAPES: usize = 4;

/// Instructions per block, and edges.
fn shape(which: usize, k: usize) -> Option<(Vec<usize>, Vec<(u32, u32)>)> {
    Some(match which {
        // One block.
        0 => (vec![k], vec![]),
        // Two in a row.
        1 if k >= 2 => (vec![k.div_ceil(2), k / 2], vec![(0, 1)]),
        // A loop without an end: the items are in its body, the entry has none.
        2 => (vec![1, k], vec![(0, 1), (1, 1)]),
        // A choice: the items in block 0, both arms, and the join.
        3 if k >= 3 => {
            let mut n = vec![1, 1, 1, k - 3];
            n[3] = n[3].max(1);
            (n, vec![(0, 1), (0, 2), (1, 3), (2, 3)])
        }
        _ => return None,
    })
}

fn sheet(which: usize, list: &[Item]) -> Option<Sheet> {
    let (insts, edges) = shape(which, list.len())?;
    let mut s = Sheet {
        slots: 2,
        regs: vec![Reg { memory: false, units: vec![0] }, Reg { memory: true, units: vec![1] }],
        classes: vec![Class { slots: true, regs: vec![0, 1] }],
        homes: vec![Some(0), Some(0)],
        recipes: if requests::recipes() { recipes() } else { vec![] },
        ..Sheet::default()
    };
    for (b, &n) in insts.iter().enumerate() {
        let idom = match (which, b) {
            (_, 0) => None,
            (3, _) => Some(0),
            _ => Some(b as u32 - 1),
        };
        s.blocks.push(Block { insts: n as u32, idom, entry: b == 0 });
    }
    for b in 0..insts.len() as u32 {
        let out: Vec<u32> = edges.iter().filter(|e| e.0 == b).map(|e| e.1).collect();
        let into: Vec<u32> = edges.iter().filter(|e| e.1 == b).map(|e| e.0).collect();
        if !out.is_empty() {
            s.succs.push((b, out));
        }
        if !into.is_empty() {
            s.preds.push((b, into));
        }
    }
    for (k, item) in list.iter().enumerate() {
        let inst = k as u32 + (which == 2) as u32;
        match *item {
            Item::Op(o) => s.ops.push(Op { inst, ..o }),
            Item::Edit(e) => s.edits.push((inst, e)),
            Item::Clob(u) => s.clobs.push((inst, vec![u])),
        }
    }
    Some(s)
}

/// Calls `f` with every sheet.
pub fn each(k: usize, which: usize, mut f: impl FnMut(&Sheet)) {
    let all = items();
    let mut at = vec![0usize; k];
    loop {
        let list: Vec<Item> = at.iter().map(|&i| all[i]).collect();
        match sheet(which, &list) {
            Some(s) => f(&s),
            None => return,
        }
        let mut d = 0;
        while d < k {
            at[d] += 1;
            if at[d] < all.len() {
                break;
            }
            at[d] = 0;
            d += 1;
        }
        if d == k {
            return;
        }
    }
}

pub fn cases(k: usize, which: usize, level: u32, sweep: u32, out: &mut dyn FnMut(&[u8])) {
    let mut buf = vec![];
    each(k, which, |s| {
        frames::put_case(&mut buf, &Case { level, sweep, cap: MAX_SHEET, sheet: s.print() });
        if buf.len() > 1 << 20 {
            out(&buf);
            buf.clear();
        }
    });
    out(&buf);
}
