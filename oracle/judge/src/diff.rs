//! The originals against document 01's rules written anew, with and without a
//! mistake put in on purpose. The rules are in rules.rs.

use std::panic::{self, AssertUnwindSafe};

use crate::frames::Case;
use crate::rules;
use crate::run::{self, Outcome};
use crate::sheet::Sheet;
use crate::small;

const SHOWN: usize = 5;

fn try_rules(s: &Sheet, level: u32, sweep: u32, quirk: u32) -> Option<Outcome> {
    panic::catch_unwind(AssertUnwindSafe(|| rules::run_quirk(s, level, sweep, quirk))).ok()
}

#[derive(Default)]
struct Tally {
    sheets: usize,
    differ: usize,
    panics: usize,
}

impl Tally {
    /// Every level and flag, whatever the case asks for.
    fn take(&mut self, s: &Sheet) {
        self.sheets += 1;
        for (level, sweep) in (0..4).flat_map(|l| [(l, 0), (l, 1)]) {
            let rust = run::try_run(s, level, sweep);
            let anew = try_rules(s, level, sweep, 0);
            self.panics += rust.is_none() as usize;
            if rust.is_none() || rust != anew {
                self.differ += 1;
                if self.differ <= SHOWN {
                    show(s, level, sweep, &rust, &anew);
                }
            }
        }
    }
    fn report(&self) -> bool {
        let debug = if cfg!(debug_assertions) { "debug assertions on" } else { "release" };
        println!(
            "{} accepted sheets at 4 levels x 2 flags ({debug}): {} runs differ, {} runs panic",
            self.sheets, self.differ, self.panics
        );
        self.differ == 0
    }
}

fn show(s: &Sheet, level: u32, sweep: u32, rust: &Option<Outcome>, anew: &Option<Outcome>) {
    let text = |o: &Option<Outcome>| match o {
        Some(o) => String::from_utf8_lossy(&run::write(o)).to_string(),
        None => "panics".into(),
    };
    println!("level {level} sweep {sweep}:\n{}", String::from_utf8_lossy(&s.print()));
    println!("the Rust:\n{}\nthe rules:\n{}", text(rust), text(anew));
}

pub fn diff(cases: &[Case]) -> bool {
    let mut t = Tally::default();
    cases.iter().filter_map(|c| run::accept(c).ok()).for_each(|s| t.take(&s));
    t.report()
}

pub fn small(items: usize) -> bool {
    let mut t = Tally::default();
    for shape in 0..small::SHAPES {
        small::each(items, shape, |s| {
            assert_eq!(s.refusal(), None);
            t.take(s);
        });
    }
    t.report()
}

/// How many cases show each mistake; false if the rules without one differ anywhere.
pub fn quirks(cases: &[Case]) -> bool {
    let names = rules::quirks();
    let mut shown = vec![0usize; names.len() + 1];
    let mut smallest: Vec<Option<(usize, usize)>> = vec![None; names.len() + 1];
    let mut ran = 0;
    for (k, c) in cases.iter().enumerate() {
        let Ok(s) = run::accept(c) else { continue };
        ran += 1;
        let right = run::try_run(&s, c.level, c.sweep);
        for q in 0..=names.len() {
            if try_rules(&s, c.level, c.sweep, q as u32) != right {
                shown[q] += 1;
                let this = (c.sheet.len(), k);
                smallest[q] = Some(smallest[q].map_or(this, |m| m.min(this)));
            }
        }
    }
    println!("{ran} accepted cases; without a mistake {} differ", shown[0]);
    println!("   shown  smallest case");
    for (q, name) in names.iter().enumerate() {
        let at = smallest[q + 1].map_or("-".into(), |(len, k)| format!("{k} ({len} bytes)"));
        println!("{:>8}  {at:24} {name}", shown[q + 1]);
    }
    shown[0] == 0
}
