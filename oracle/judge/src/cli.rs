//! The command line. Each command's work is left to its module.

use std::io::{self, Read, Write};
use std::panic;
use std::process::exit;

use crate::Clean;
use crate::bench::bench;
use crate::compare::compare;
use crate::cover::cover;
use crate::diff;
use crate::edges;
use crate::frames::{self, Answer, Case};
use crate::model;
use crate::mutate;
use crate::requests;
use crate::rng::Rng;
use crate::run;
use crate::sheet::MAX_SHEET;
use crate::small;
use crate::why;
use crate::worked;
use crate::worst;

const USAGE: &str = "\
oracle LEVEL SWEEP CAP < sheet            answer on stdout, return number on stderr
oracle program < sheet                    as 01's small program: level 1, sweep, 65,536 bytes
oracle gen SEED N [all]                   N good cases on stdout; `all` adds odd ones
oracle mutate SEED N                      N damaged cases on stdout
oracle small K SHAPE LEVEL SWEEP          all cases of K items on a small machine, shape 0 to 3
oracle answers CASES                      the Rust's answers on stdout
oracle compare CASES                      the library against the Rust
oracle cover CASES..                      what the cases exercise; fails where something is missing
oracle worked [cases]                     C1 to C11
oracle edges [cases]                      smallest sheets, and those of docs/, with their answers
oracle diff CASES                         the Rust against 01's rules written anew
oracle smalldiff K                        the same on all cases of K items on the small machine
oracle why CASES                          which rule refuses, and the refusals written twice
oracle model CASES [QUIRK]                level 0 and sweep against 01's model and `brought on`
oracle quirks CASES                       how many cases show each of a list of likely mistakes
oracle bench CASES [ROUNDS [LEVEL SWEEP]] ns per sheet by stage; with --csv at the end for programs
oracle worst [ROUNDS]                     sheets that press on one step each, timed; --csv as above
oracle worst cases                        these sheets
oracle show CASES K                       sheet number K (from 0) on stdout, its call on stderr
oracle pick CASES K..                     the cases of these numbers as a case file
With REQUESTS=2 in the environment all of them know request 2 of document 02.
CASES is a file, or - for stdin. Exit status: 0 well, 1 something differs, 2 cannot run.";

/// Whether all is well, or why the command cannot run.
type Ended = Result<bool, String>;

pub fn main(clean: Option<Clean>) {
    let args: Vec<String> = std::env::args().skip(1).collect();
    let words: Vec<&str> = args.iter().map(|a| a.as_str()).collect();
    match requests::refused().map_or_else(|| command(&words, clean), Err) {
        Ok(good) => exit(!good as i32),
        Err(why) => {
            eprintln!("{why}");
            exit(2)
        }
    }
}

fn command(words: &[&str], clean: Option<Clean>) -> Ended {
    match *words {
        ["program"] => program(),
        ["gen", seed, n] => generate(seed, n, false),
        ["gen", seed, n, "all"] => generate(seed, n, true),
        ["mutate", seed, n] => damage(seed, n),
        ["small", k, shape, level, sweep] => small(k, shape, level, sweep),
        ["answers", file] => answers(file),
        ["compare", file] => compare(&load(file)?, clean),
        ["cover", ref files @ ..] if !files.is_empty() => cover_all(files),
        ["worked"] => Ok(worked::check()),
        ["worked", "cases"] => put_cases(worked::all().into_iter().map(|w| w.case)),
        ["edges"] => quiet(edges::check),
        ["edges", "cases"] => put_cases(edges::all()?.into_iter().map(|e| e.case)),
        ["diff", file] => quiet(|| Ok(diff::diff(&load(file)?))),
        ["smalldiff", k] => quiet(|| Ok(diff::small(number(k)?))),
        ["quirks", file] => quiet(|| Ok(diff::quirks(&load(file)?))),
        ["why", file] => Ok(why::report(&load(file)?)),
        ["model", file] => Ok(model::report(&load(file)?, None)),
        ["model", file, quirk] => Ok(model::report(&load(file)?, Some(number(quirk)?))),
        ["bench", file, ref rest @ ..] => time(file, rest, clean),
        ["worst", "cases"] => put_cases(worst::all().into_iter().map(|w| w.case)),
        ["worst"] => worst::report(20, false, clean),
        ["worst", "--csv"] => worst::report(20, true, clean),
        ["worst", rounds] => worst::report(number(rounds)?, false, clean),
        ["worst", rounds, "--csv"] => worst::report(number(rounds)?, true, clean),
        ["show", file, k] => show(file, k),
        ["pick", file, ref ks @ ..] => pick(file, ks),
        [level, sweep, cap] if level.starts_with(|c: char| c.is_ascii_digit()) => {
            single(number(level)?, number(sweep)?, number(cap)?)
        }
        _ => Err(USAGE.into()),
    }
}

// ---- in and out --------------------------------------------------------------------

fn number<T: std::str::FromStr>(word: &str) -> Result<T, String> {
    word.parse().map_err(|_| format!("{word}: not a number that fits"))
}

fn bytes_of(path: &str) -> Result<Vec<u8>, String> {
    if path != "-" {
        return std::fs::read(path).map_err(|e| format!("{path}: {e}"));
    }
    let mut bytes = vec![];
    io::stdin().read_to_end(&mut bytes).map_err(|e| e.to_string())?;
    Ok(bytes)
}

fn load(path: &str) -> Result<Vec<Case>, String> {
    frames::cases(&bytes_of(path)?).map_err(|e| format!("{path}: {e}"))
}

/// A closed pipe is no fault.
fn put(bytes: &[u8]) {
    let _ = io::stdout().lock().write_all(bytes);
}

fn put_cases(cases: impl IntoIterator<Item = Case>) -> Ended {
    for c in cases {
        let mut out = vec![];
        frames::put_case(&mut out, &c);
        put(&out);
    }
    Ok(true)
}

/// Without the messages of panics that the command counts itself.
fn quiet(f: impl FnOnce() -> Ended) -> Ended {
    panic::set_hook(Box::new(|_| {}));
    f()
}

// ---- short commands ----------------------------------------------------------------

fn program() -> Ended {
    let c = Case { level: 1, sweep: 1, cap: MAX_SHEET, sheet: bytes_of("-")? };
    match run::call(&c) {
        Ok(b) => put(&b),
        Err(n) => put(format!("refused,{n}\r\n").as_bytes()),
    }
    Ok(true)
}

fn single(level: u32, sweep: u32, cap: usize) -> Ended {
    match run::call(&Case { level, sweep, cap, sheet: bytes_of("-")? }) {
        Ok(b) => {
            put(&b);
            eprintln!("{}", b.len());
        }
        Err(n) => eprintln!("-{n}"),
    }
    Ok(true)
}

fn generate(seed: &str, n: &str, all: bool) -> Ended {
    let mut rng = Rng(number(seed)?);
    put_cases((0..number::<u64>(n)?).map(|_| mutate::good(&mut rng, all)))
}

fn damage(seed: &str, n: &str) -> Ended {
    let mut rng = Rng(number::<u64>(seed)? ^ 0x5EED_DA3A_6ED0_0000);
    put_cases((0..number::<u64>(n)?).map(|_| mutate::damaged(&mut rng)))
}

fn small(k: &str, shape: &str, level: &str, sweep: &str) -> Ended {
    small::cases(number(k)?, number(shape)?, number(level)?, number(sweep)?, &mut |b| put(b));
    Ok(true)
}

fn time(file: &str, rest: &[&str], clean: Option<Clean>) -> Ended {
    let (rest, csv) = match rest {
        [rest @ .., "--csv"] => (rest, true),
        _ => (rest, false),
    };
    let (rounds, force) = match *rest {
        [] => (20, None),
        [rounds] => (number(rounds)?, None),
        [rounds, level, sweep] => (number(rounds)?, Some((number(level)?, number(sweep)?))),
        _ => return Err(USAGE.into()),
    };
    bench(load(file)?, rounds, force, csv, clean)
}

fn answers(file: &str) -> Ended {
    let cases = load(file)?;
    quiet(|| {
        let mut good = true;
        for c in &cases {
            let a = run::answer(c);
            good &= !matches!(a, Answer::Panic(_));
            let mut out = vec![];
            frames::put_answer(&mut out, &a);
            put(&out);
        }
        Ok(good)
    })
}

fn cover_all(files: &[&str]) -> Ended {
    let mut cases = vec![];
    for f in files {
        cases.extend(load(f)?);
    }
    Ok(cover(&cases))
}

fn at<'a>(cases: &'a [Case], k: &str) -> Result<&'a Case, String> {
    cases.get(number::<usize>(k)?).ok_or_else(|| format!("{k}: there are {} cases", cases.len()))
}

fn show(file: &str, k: &str) -> Ended {
    let cases = load(file)?;
    let c = at(&cases, k)?;
    eprintln!("level {} sweep {} cap {}", c.level, c.sweep, c.cap);
    put(&c.sheet);
    Ok(true)
}

fn pick(file: &str, ks: &[&str]) -> Ended {
    let cases = load(file)?;
    let picked: Result<Vec<Case>, String> = ks.iter().map(|k| at(&cases, k).cloned()).collect();
    put_cases(picked?)
}
