//! Cases out of generated sheets: good ones, and ones damaged by byte, by row, by
//! field (text.rs) and by meaning (meaning.rs, recipes.rs), with both sides of every limit.

mod meaning;
mod recipes;
mod text;

use crate::frames::Case;
use crate::generate::Gen;
use crate::requests;
use crate::rng::Rng;
use crate::run;
use crate::sheet::MAX_SHEET;
use meaning::{blocks, edits, limit, names, operand};
use recipes::recipe;
use text::{byte, field, rows};

fn random_call(rng: &mut Rng) -> (u32, u32) {
    let level = rng.weighted(&[10, 25, 30, 35]) as u32;
    let sweep = rng.weighted(&[35, 65]) as u32;
    (level, sweep)
}

/// The length of the answer, if there is one.
fn answer_len(level: u32, sweep: u32, sheet: &[u8]) -> Option<usize> {
    let c = Case { level, sweep, cap: usize::MAX, sheet: sheet.to_vec() };
    run::call(&c).ok().map(|out| out.len())
}

/// A good sheet as a case; the buffer is now and then exactly full, or a byte short.
pub fn good(rng: &mut Rng, odd: bool) -> Case {
    let (level, sweep) = random_call(rng);
    let sheet = Gen { rng, odd }.sheet().print();
    let mut cap = MAX_SHEET;
    if rng.pct(4) {
        if let Some(len) = answer_len(level, sweep, &sheet) {
            cap = len - rng.pct(25) as usize;
        }
    }
    Case { level, sweep, cap, sheet }
}

/// A case with one damage, or two.
pub fn damaged(rng: &mut Rng) -> Case {
    let (mut level, mut sweep) = random_call(rng);
    let mut cap = MAX_SHEET;
    // Mostly small sheets: a damage then shows more often.
    let which = rng.weighted(&[40, 40, 17, 3]);
    let mut sheet = Gen { rng: &mut *rng, odd: false }.sheet_of(which);
    if rng.pct(8) {
        return Case { level, sweep, cap, sheet: limit(rng, sheet).print() };
    }
    let times = if rng.pct(80) { 1 } else { 2 };
    // Once there are bytes, they count and no longer the sheet.
    let mut bytes: Option<Vec<u8>> = None;
    for _ in 0..times {
        let recipes = if requests::recipes() { 14 } else { 0 };
        match rng.weighted(&[14, 10, 10, 10, 10, 8, 8, 5, 3, 4, recipes]) {
            0 => names(rng, &mut sheet),
            1 => blocks(rng, &mut sheet),
            2 => operand(rng, &mut sheet),
            3 => edits(rng, &mut sheet),
            4 => field(rng, bytes.get_or_insert_with(|| sheet.print())),
            5 => rows(rng, bytes.get_or_insert_with(|| sheet.print())),
            6 => byte(rng, bytes.get_or_insert_with(|| sheet.print())),
            7 if rng.pct(50) => level = rng.pick(&[4, 5, 255, 65_536, u32::MAX]),
            7 => sweep = rng.pick(&[2, 3, 255, 65_536, u32::MAX]),
            8 => sheet = limit(rng, sheet),
            10 => recipe(rng, &mut sheet),
            _ => {
                let now = bytes.clone().unwrap_or_else(|| sheet.print());
                if let Some(len) = answer_len(level.min(3), sweep.min(1), &now) {
                    cap = len.saturating_sub(rng.pick(&[0, 1, 1, 2, 10, usize::MAX]));
                }
            }
        }
    }
    Case { level, sweep, cap, sheet: bytes.unwrap_or_else(|| sheet.print()) }
}
