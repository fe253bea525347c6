//! The library against the Rust, call by call, with everything that a call may not
//! touch watched. What the right answer is, is left to run.rs.

use std::panic;

use crate::Clean;
use crate::frames::{Answer, Case};
use crate::run;

const GUARD: usize = 64;
const SHOWN: usize = 5;
const NOT_LINKED: &str = "compare: no library is linked; run `bindings/archive` in the \
                          project's root (or set DRIFTHURDLE_LIB) and build the oracle again";

/// The pattern of guards and buffer. Two rounds use it and its complement, so that a
/// stray byte shows in at least one of them, and so that an answer which depends on
/// bytes outside the sheet shows as well.
fn pattern(at: usize, round: u8) -> u8 {
    let byte = 0xA5 ^ (at as u8).wrapping_mul(37);
    if round == 0 { byte } else { !byte }
}

/// Bytes between guards.
struct Guarded {
    all: Vec<u8>,
    len: usize,
    round: u8,
}

impl Guarded {
    /// A buffer that holds the pattern.
    fn buffer(len: usize, round: u8) -> Self {
        Self { all: (0..len + 2 * GUARD).map(|k| pattern(k, round)).collect(), len, round }
    }
    fn holding(bytes: &[u8], round: u8) -> Self {
        let mut g = Self::buffer(bytes.len(), round);
        g.inner_mut().copy_from_slice(bytes);
        g
    }
    fn inner(&self) -> &[u8] {
        &self.all[GUARD..GUARD + self.len]
    }
    fn inner_mut(&mut self) -> &mut [u8] {
        &mut self.all[GUARD..GUARD + self.len]
    }
    fn is_pattern(&self, at: usize) -> bool {
        self.all[at] == pattern(at, self.round)
    }
    fn guard_before_holds(&self) -> bool {
        (0..GUARD).all(|k| self.is_pattern(k))
    }
    fn guard_after_holds(&self) -> bool {
        (GUARD + self.len..self.all.len()).all(|k| self.is_pattern(k))
    }
    /// The first byte from `from` on that no longer holds the pattern.
    fn first_altered(&self, from: usize) -> Option<usize> {
        (from..self.len).find(|&k| !self.is_pattern(GUARD + k))
    }
}

struct Called {
    returned: i64,
    sheet: Guarded,
    out: Guarded,
}

fn call(clean: Clean, c: &Case, round: u8) -> Called {
    let sheet = Guarded::holding(&c.sheet, round);
    let mut out = Guarded::buffer(c.cap, round);
    let (from, to) = (sheet.inner().as_ptr(), out.inner_mut().as_mut_ptr());
    // SAFETY: both pointers are good for the lengths given with them.
    let returned = unsafe { clean(from, c.sheet.len(), c.level, c.sweep, to, c.cap) };
    Called { returned, sheet, out }
}

/// What is wrong with one call, in words.
fn faults(c: &Case, want: i64, bytes: &[u8], got: &Called) -> Vec<String> {
    let mut l = vec![];
    if got.returned != want {
        l.push(format!("returned {} instead of {want}", got.returned));
    }
    let out = got.out.inner();
    if let Some(k) = (0..bytes.len()).find(|&k| out[k] != bytes[k]) {
        l.push(format!("byte {k} of the answer differs"));
    }
    if let Some(k) = got.out.first_altered(bytes.len()) {
        let what = if want < 0 { "though it refuses" } else { "after the answer" };
        l.push(format!("byte {k} of the buffer written {what}"));
    }
    for (holds, what) in [
        (got.out.guard_before_holds(), "bytes before the buffer written"),
        (got.out.guard_after_holds(), "bytes after the buffer written"),
        (got.sheet.guard_before_holds(), "bytes before the sheet written"),
        (got.sheet.guard_after_holds(), "bytes after the sheet written"),
        (got.sheet.inner() == c.sheet, "the sheet written"),
    ] {
        if !holds {
            l.push(what.into());
        }
    }
    l
}

fn judge(clean: Clean, c: &Case) -> Vec<String> {
    let (want, bytes) = match run::answer(c) {
        Answer::Ret(n, b) => (n, b),
        Answer::Panic(m) => return vec![format!("the Rust panics: {m}")],
    };
    let mut l: Vec<String> = vec![];
    for round in 0..2 {
        for fault in faults(c, want, &bytes, &call(clean, c, round)) {
            if !l.contains(&fault) {
                l.push(fault);
            }
        }
    }
    l
}

fn show(k: usize, c: &Case, faults: &[String], clean: Clean) {
    println!("case {k}: level {} sweep {} cap {}", c.level, c.sweep, c.cap);
    for f in faults {
        println!("  {f}");
    }
    println!("sheet, {} bytes:\n{}", c.sheet.len(), String::from_utf8_lossy(&c.sheet));
    match run::answer(c) {
        Answer::Ret(n, b) => println!("the Rust: {n}\n{}", String::from_utf8_lossy(&b)),
        Answer::Panic(m) => println!("the Rust panics: {m}"),
    }
    let got = call(clean, c, 0);
    let written = &got.out.inner()[..got.returned.clamp(0, c.cap as i64) as usize];
    println!("the library: {}\n{}", got.returned, String::from_utf8_lossy(written));
}

/// True if no case differs.
pub fn compare(cases: &[Case], clean: Option<Clean>) -> Result<bool, String> {
    let clean = clean.ok_or(NOT_LINKED)?;
    panic::set_hook(Box::new(|_| {}));
    let mut differ = 0;
    for (k, c) in cases.iter().enumerate() {
        let l = judge(clean, c);
        if !l.is_empty() {
            differ += 1;
            if differ <= SHOWN {
                show(k, c, &l, clean);
            }
        }
    }
    println!("{} cases, {differ} differ", cases.len());
    Ok(differ == 0)
}
