//! Damage to recipes and `irem` edits (request 2).

use super::meaning::{wrong, wrong_place};
use crate::rng::Rng;
use crate::sheet::*;

const DEFINING: [OpKind; 4] = [OpKind::Def, OpKind::Early, OpKind::DefG, OpKind::EarlyG];

pub(super) fn recipe(rng: &mut Rng, s: &mut Sheet) {
    if rng.pct(15) && irem(rng, s) {
        return;
    }
    if s.recipes.is_empty() {
        let value = rng.below(s.homes.len()) as u32;
        let con = Con::Fixed(rng.below(s.regs.len()) as u32);
        s.recipes.push(Recipe { value, con, overlap: rng.pct(50), inputs: vec![] });
    }
    let k = rng.below(s.recipes.len());
    if s.recipes[k].inputs.is_empty() && rng.pct(70) {
        let con = Con::Fixed(rng.below(s.regs.len()) as u32);
        s.recipes[k].inputs.push(Rin { kind: OpKind::Fixed, subject: 0, con });
    }
    if s.recipes[k].inputs.is_empty() || rng.pct(35) {
        whole(rng, s, k);
    } else {
        input(rng, s, k);
    }
}

/// A given `irem` gets another input; false if there is none.
fn irem(rng: &mut Rng, s: &mut Sheet) -> bool {
    let irems: Vec<usize> =
        (0..s.edits.len()).filter(|&k| matches!(s.edits[k].1, Edit::Irem { .. })).collect();
    if irems.is_empty() {
        return false;
    }
    let k = rng.pick(&irems);
    let place = wrong_place(rng, s);
    if let Edit::Irem { inputs, .. } = &mut s.edits[k].1 {
        let mut list = inputs.to_vec();
        list.insert(rng.range(0, list.len()), place);
        *inputs = Inputs::new(&list);
    }
    true
}

fn whole(rng: &mut Rng, s: &mut Sheet, k: usize) {
    let inputs = s.recipes[k].inputs.len();
    match rng.below(8) {
        0 => s.recipes[k].value = wrong(rng, s.homes.len()),
        1 => s.recipes[k].con = Con::Class(wrong(rng, s.classes.len())),
        2 => s.recipes[k].con = Con::Fixed(wrong(rng, s.regs.len())),
        // Often at an input that may not be reused.
        3 | 4 => s.recipes[k].con = Con::Reuse(wrong(rng, inputs)),
        5 => s.recipes[k].con = Con::Reuse(rng.pick(&[126, 127, 128, 129])),
        6 => {
            // Twice, or out of order.
            let j = rng.below(s.recipes.len());
            if rng.pct(50) {
                let again = s.recipes[k].clone();
                s.recipes.insert(k, again);
            } else {
                s.recipes.swap(k, j);
            }
        }
        _ => s.recipes[k].overlap = !s.recipes[k].overlap,
    }
}

fn input(rng: &mut Rng, s: &mut Sheet, k: usize) {
    let (vgroups, regs, classes, values) =
        (s.vgroups.len(), s.regs.len(), s.classes.len(), s.homes.len());
    let at = rng.below(s.recipes[k].inputs.len());
    let reused = Con::Reuse(at as u32);
    let recipe = &mut s.recipes[k];
    let input = &mut recipe.inputs[at];
    let class = Con::Class(rng.below(classes) as u32);
    let fixed = Con::Fixed(rng.below(regs) as u32);
    match rng.below(13) {
        0 => {
            input.kind = rng.pick(&DEFINING);
            input.subject = rng.below(if input.kind.is_group() { vgroups } else { values }) as u32;
        }
        1 => input.con = Con::Reuse(rng.pick(&[0, 1, 5, 127, 128])),
        2 if vgroups > 0 => {
            let con = if rng.pct(60) { fixed } else { class };
            *input = Rin { kind: OpKind::UseG, subject: rng.below(vgroups) as u32, con };
        }
        3 if vgroups > 0 => {
            let subject = rng.below(vgroups) as u32;
            *input = Rin { kind: OpKind::UseG, subject, con: class };
            recipe.con = reused;
        }
        4 => *input = Rin { kind: OpKind::Fixed, subject: 0, con: class },
        5 => {
            *input = Rin { kind: OpKind::Fixed, subject: 0, con: fixed };
            recipe.con = reused;
        }
        6 => recipe.con = reused,
        7 => input.con = Con::Class(wrong(rng, classes)),
        8 => input.con = Con::Fixed(wrong(rng, regs)),
        9 => input.subject = wrong(rng, if input.kind.is_group() { vgroups } else { values }),
        10 => {
            let again = *input;
            recipe.inputs.insert(at, again);
        }
        11 => {
            recipe.inputs.remove(at);
        }
        _ => input.kind = rng.pick(&OpKind::ALL),
    }
}
