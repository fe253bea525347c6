//! Time of each stage over a file of cases: the originals', the oracle's own, and the
//! whole of the library's call where one is linked. It is the thread's own time, and
//! nothing is timed as it runs first.

use std::hint::black_box;

use crate::Clean;
use crate::clock;
use crate::frames::Case;
use crate::internal::dead_spill_elimination::DeadSpillElimination;
use crate::internal::move_optimizer::MoveOptimizer;
use crate::read::read;
use crate::run;
use crate::sheet::MAX_SHEET;

/// So many sheets are timed at once: the clock itself takes a while.
const CHUNK: usize = 32;

const READ: usize = 0;
const CHECK: usize = 1;
const BUILD: usize = 2;
const NEW: usize = 3;
const OPTIMISE: usize = 4;
const SWEEP: usize = 5;
const WRITE: usize = 6;
const OPTIMISE_AGAIN: usize = 7;
const SWEEP_AGAIN: usize = 8;
const WHOLE: usize = 9;
const WHOLE_AGAIN: usize = 10;
const LIBRARY: usize = 11;
const LIBRARY_OFF: usize = 12;
const LIBRARY_UNSWEPT: usize = 13;
const STAGES: usize = 14;

const NAMES: [&str; STAGES] = [
    "read (oracle)",
    "check 2 to 6 (oracle)",
    "build what the passes work on (oracle)",
    "MoveOptimizer::new (Rust)",
    "optimise (Rust, fresh)",
    "sweep (Rust, fresh; flag 1 only)",
    "write (oracle)",
    "optimise (Rust, used buffers)",
    "sweep (Rust, used buffers)",
    "whole call with the Rust, fresh",
    "whole call with the Rust, used buffers",
    "drifthurdle_clean, whole call",
    "drifthurdle_clean at level 0, flag 0",
    "drifthurdle_clean at the level, flag 0",
];

/// ns by stage: of the present round, of the best one, and of all.
#[derive(Clone)]
struct Times {
    round: [u64; STAGES],
    best: [u64; STAGES],
    total: [u64; STAGES],
}

impl Times {
    fn new() -> Self {
        Self { round: [0; STAGES], best: [u64::MAX; STAGES], total: [0; STAGES] }
    }
    fn of<T>(&mut self, stage: usize, f: impl FnOnce() -> T) -> T {
        let start = clock::now();
        let result = f();
        self.round[stage] += clock::now() - start;
        result
    }
    fn end_round(&mut self) {
        for k in 0..STAGES {
            self.best[k] = self.best[k].min(self.round[k]);
            self.total[k] += self.round[k];
        }
        self.round = [0; STAGES];
    }
    /// The times of several lists of sheets as if they were one list.
    fn sum(all: &[Times]) -> Self {
        let add = |of: fn(&Times) -> &[u64; STAGES]| {
            std::array::from_fn(|k| all.iter().map(|t| of(t)[k]).sum())
        };
        Self { round: [0; STAGES], best: add(|t| &t.best), total: add(|t| &t.total) }
    }
    /// Each line's name, ns a sheet of the best rounds, and of the mean.
    fn lines(&self, sheets: usize, rounds: usize, linked: bool) -> Vec<(&'static str, u64, u64)> {
        let mut lines = vec![];
        let mut line = |name, of: &dyn Fn(&[u64; STAGES]) -> u64| {
            let (n, all) = (sheets as u64, (sheets * rounds) as u64);
            lines.push((name, of(&self.best) / n, of(&self.total) / all));
        };
        for k in 0..if linked { STAGES } else { LIBRARY } {
            line(NAMES[k], &|t| t[k]);
        }
        if linked {
            let less = |a: usize, b: usize| move |t: &[u64; STAGES]| t[a].saturating_sub(t[b]);
            line("optimise (library, by difference)", &less(LIBRARY_UNSWEPT, LIBRARY_OFF));
            line("sweep (library, by difference)", &less(LIBRARY, LIBRARY_UNSWEPT));
            line("the library's two passes (by difference)", &less(LIBRARY, LIBRARY_OFF));
        }
        line("the Rust's two passes (fresh)", &|t| t[NEW] + t[OPTIMISE] + t[SWEEP]);
        line("the Rust's two passes (used buffers)", &|t| t[OPTIMISE_AGAIN] + t[SWEEP_AGAIN]);
        lines
    }
}

/// Buffers that are used again: the originals', and the library's output buffer.
pub struct Used {
    optimizer: MoveOptimizer,
    dead: DeadSpillElimination,
    out: Vec<u8>,
}

impl Used {
    pub fn new() -> Self {
        Self {
            optimizer: MoveOptimizer::new(),
            dead: DeadSpillElimination::new(),
            out: vec![0; MAX_SHEET],
        }
    }
    /// The whole call with the Rust.
    pub fn whole(&mut self, c: &Case) {
        let Ok(sheet) = run::accept(black_box(c)) else { return };
        let mut p = run::build(&sheet);
        run::optimise(&mut p, &mut self.optimizer, c.level);
        if c.sweep == 1 {
            run::sweep(&mut p, &mut self.dead);
        }
        black_box(run::write(&run::outcome(&p)));
    }
    /// The whole call with the library.
    pub fn clean(&mut self, clean: Clean, c: &Case) {
        self.clean_at(clean, c, c.level, c.sweep);
    }
    fn clean_at(&mut self, clean: Clean, c: &Case, level: u32, sweep: u32) {
        let (sheet, out) = (black_box(&c.sheet), &mut self.out[..c.cap.min(MAX_SHEET)]);
        // SAFETY: both pointers are good for the lengths given with them.
        let n = unsafe {
            clean(sheet.as_ptr(), sheet.len(), level, sweep, out.as_mut_ptr(), out.len())
        };
        black_box(n);
    }
}

fn chunk(cases: &[Case], t: &mut Times, used: &mut Used, clean: Option<Clean>) {
    let sheets: Vec<_> =
        t.of(READ, || cases.iter().map(|c| read(black_box(&c.sheet)).unwrap()).collect());
    t.of(CHECK, || assert!(sheets.iter().all(|s| black_box(s).refusal().is_none())));
    let mut ready: Vec<_> = t.of(BUILD, || sheets.iter().map(run::build).collect());
    let mut fresh: Vec<_> = t.of(NEW, || cases.iter().map(|_| MoveOptimizer::new()).collect());
    t.of(OPTIMISE, || {
        for ((p, o), c) in ready.iter_mut().zip(&mut fresh).zip(cases) {
            run::optimise(p, o, c.level);
        }
    });
    t.of(SWEEP, || {
        for (p, _) in ready.iter_mut().zip(cases).filter(|(_, c)| c.sweep == 1) {
            run::sweep(p, &mut DeadSpillElimination::new());
        }
    });
    t.of(WRITE, || {
        for p in &ready {
            black_box(run::write(&run::outcome(p)));
        }
    });
    let mut again: Vec<_> = sheets.iter().map(run::build).collect();
    t.of(OPTIMISE_AGAIN, || {
        for (p, c) in again.iter_mut().zip(cases) {
            run::optimise(p, &mut used.optimizer, c.level);
        }
    });
    t.of(SWEEP_AGAIN, || {
        for (p, _) in again.iter_mut().zip(cases).filter(|(_, c)| c.sweep == 1) {
            run::sweep(p, &mut used.dead);
        }
    });
    t.of(WHOLE, || cases.iter().for_each(|c| drop(black_box(run::call(c)))));
    cases.iter().for_each(|c| used.whole(c));
    t.of(WHOLE_AGAIN, || cases.iter().for_each(|c| used.whole(c)));
    if let Some(clean) = clean {
        cases.iter().for_each(|c| used.clean(clean, c));
        t.of(LIBRARY, || cases.iter().for_each(|c| used.clean(clean, c)));
        t.of(LIBRARY_OFF, || cases.iter().for_each(|c| used.clean_at(clean, c, 0, 0)));
        t.of(LIBRARY_UNSWEPT, || cases.iter().for_each(|c| used.clean_at(clean, c, c.level, 0)));
    }
}

/// How many sheets an optimizer answers otherwise after the sheets before: the
/// originals never empty `value_def_block`.
fn reused_differ(cases: &[Case]) -> usize {
    let mut optimizer = MoveOptimizer::new();
    let differs = |c: &&Case| {
        let s = read(&c.sheet).unwrap();
        let mut p = run::build(&s);
        run::optimise(&mut p, &mut optimizer, c.level);
        run::outcome(&p) != run::run(&s, c.level, 0)
    };
    cases.iter().filter(differs).count()
}

/// `force`: this level and sweep flag instead of the cases' own. Accepted cases only.
pub fn bench(
    mut cases: Vec<Case>,
    rounds: usize,
    force: Option<(u32, u32)>,
    csv: bool,
    clean: Option<Clean>,
) -> Result<bool, String> {
    if let Some((level, sweep)) = force {
        cases.iter_mut().for_each(|c| (c.level, c.sweep) = (level, sweep));
    }
    cases.retain(|c| run::accept(c).is_ok());
    let n = cases.len();
    if n == 0 || rounds == 0 {
        return Err("bench: no accepted case, or no round".into());
    }
    let bytes = cases.iter().map(|c| c.sheet.len()).sum::<usize>() / n;
    let lines = measure(&cases, rounds, clean).lines(n, rounds, clean.is_some());
    if csv {
        println!("sheets,bytes,name,best_ns,mean_ns");
        for (name, best, mean) in lines {
            println!("{n},{bytes},\"{name}\",{best},{mean}");
        }
        return Ok(true);
    }
    if let Some((level, sweep)) = force {
        println!("level {level}, sweep flag {sweep} throughout");
    }
    println!("{n} accepted sheets, {bytes} bytes on average, {rounds} rounds");
    if cfg!(debug_assertions) {
        println!("(debug build: the numbers mean little)");
    }
    println!("{:44} {:>10} {:>10}", "ns per sheet", "best", "mean");
    for (name, best, mean) in lines {
        println!("{name:44} {best:>10} {mean:>10}");
    }
    println!("answers of a used optimizer that differ: {} of {n}", reused_differ(&cases));
    Ok(true)
}

/// Some sheets at a time, each lot with its own best round; the first round is not timed.
fn measure(cases: &[Case], rounds: usize, clean: Option<Clean>) -> Times {
    let mut used = Used::new();
    let mut times = vec![Times::new(); cases.len().div_ceil(CHUNK)];
    for part in cases.chunks(CHUNK) {
        chunk(part, &mut Times::new(), &mut used, clean);
    }
    for _ in 0..rounds {
        for (part, t) in cases.chunks(CHUNK).zip(&mut times) {
            chunk(part, t, &mut used, clean);
            t.end_round();
        }
    }
    Times::sum(&times)
}
