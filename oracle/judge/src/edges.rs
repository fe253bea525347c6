//! Smallest sheets for single rules, with the answer that each must have: a list made
//! by hand, and the tables of the project's papers; with request 2 those of its
//! readings as well.

use crate::frames::{Case, from_rows, to_rows};
use crate::internal::move_optimizer::MoveOptimizer;
use crate::read::read;
use crate::requests;
use crate::run;
use crate::sheet::{MAX_SHEET, Sheet};

pub struct Edge {
    pub name: String,
    pub case: Case,
    want: Want,
}

enum Want {
    /// The return value; for an accepted sheet the answer's length.
    Returns(i64),
    /// The answer itself.
    Bytes(Vec<u8>),
}

impl Edge {
    /// What comes out, and whether that is right.
    fn run(&self) -> (i64, Vec<u8>, bool) {
        let (ret, bytes) = match run::call(&self.case) {
            Ok(b) => (b.len() as i64, b),
            Err(n) => (-(n as i64), vec![]),
        };
        let good = match &self.want {
            Want::Returns(n) => *n == ret,
            Want::Bytes(b) => ret >= 0 && *b == bytes,
        };
        (ret, bytes, good)
    }
}

/// Prints each with what comes out; true if all come out as written.
pub fn check() -> Result<bool, String> {
    let list = all()?;
    let mut bad = 0;
    for e in &list {
        let (ret, bytes, good) = e.run();
        println!("{} {ret:>6}  {}", if good { "ok " } else { "BAD" }, e.name);
        if !good {
            bad += 1;
            match &e.want {
                Want::Returns(n) => println!("    wanted {n}"),
                Want::Bytes(b) => println!("    wanted {}", to_rows(b)),
            }
            println!("    got    {ret} {}", to_rows(&bytes));
        }
    }
    let reuse = reuse_shows();
    println!("{} a reused optimizer answers otherwise", if reuse { "ok " } else { "BAD" });
    let asserted = assertions_show();
    let when = if cfg!(debug_assertions) { "fire" } else { "are off" };
    println!("{} the Rust's debug assertions {when}", if asserted { "ok " } else { "BAD" });
    println!("{} edges, {bad} not as written", list.len());
    Ok(bad == 0 && reuse && asserted)
}

const PAPERS: [&str; 2] = ["DECISIONS.md", "DIFFERENCES.md"];

pub fn all() -> Result<Vec<Edge>, String> {
    let mut all = by_hand();
    for paper in PAPERS {
        all.extend(in_paper(paper, false)?);
    }
    if requests::recipes() {
        all.iter_mut().for_each(Edge::count_ten);
        all.extend(recipe_sizes());
        all.extend(in_readings(include_str!("../readings/request-2"))?);
        for paper in PAPERS {
            all.extend(in_paper(paper, true)?);
        }
    }
    Ok(all)
}

// ---- request 2 ---------------------------------------------------------------------

const TENTH: &[u8] = b",0";

impl Edge {
    /// The tenth count: 0 where there is no recipe, so each answer is two bytes longer.
    /// The buffer gets two bytes more, so that it holds the answer if it held it before.
    fn count_ten(&mut self) {
        self.case.cap += TENTH.len();
        match &mut self.want {
            Want::Returns(n) if *n >= 0 => *n += TENTH.len() as i64,
            Want::Returns(_) => {}
            Want::Bytes(b) => {
                let end = b.len() - 2;
                b.splice(end..end, TENTH.iter().copied());
            }
        }
    }
}

/// As many inputs and as long answers as a sheet can have.
fn recipe_sizes() -> Vec<Edge> {
    let mut l = List { all: vec![] };
    let end = "block,0,1,-,1";
    for n in [2049, 4092] {
        let rins = "rin,0,use,0,c0 / ".repeat(n);
        let rows = format!("slots,0 / class,0,0 / value,0,- / iremat,0,c0,0 / {rins}{end}");
        l.rows(&format!("{n} rin rows"), &rows, 27);
    }
    let rins = "rin,0,fixed,-,f0 / ".repeat(100);
    let ops = " / op,0,fixed,-,f0,r0".repeat(2048);
    let machine = "slots,0 / reg,0,0,0 / value,0,- / iremat,0,f0,0";
    l.rows("2,048 op rows and 100 rin rows", &format!("{machine} / {rins}{end}{ops}"), 27);
    for (n, want) in [(21_823, 65_516), (21_824, -1)] {
        let rows = "slots,1 / reg,0,0,0 / value,0,- / block,0,1,-,1 / edit,0,irem,s0,-,0";
        let sheet = from_rows(&format!("{rows}{}", ",r0".repeat(n)));
        l.raw(&format!("an irem of {n} inputs"), &sheet, 0, 0, MAX_SHEET, want);
    }
    let rebuilt = |edits: usize, inputs: usize| {
        let values = "slots,1 / reg,0,0,0 / class,0,1,0 / value,0,- / value,1,- / iremat,0,c0,0";
        let rins = " / rin,0,use,1,c0".repeat(inputs);
        let loads = " / edit,0,move,s0,s0,0".repeat(edits);
        from_rows(&format!("{values}{rins} / {end} / param,0,1,r0{loads}"))
    };
    let longest = rebuilt(1024, 2745);
    assert_eq!(longest.len(), 65_523);
    l.raw("1,024 edits rebuilt from 2,745 inputs", &longest, 1, 0, 8_453_150, 8_453_150);
    l.raw("8 the same, into 65,536 bytes", &longest, 1, 0, MAX_SHEET, -8);
    l.raw("8 129 edits rebuilt from 169 inputs", &rebuilt(129, 169), 1, 0, MAX_SHEET, -8);
    l.all
}

/// Pieces of a `sheet`, a `call` and an `answer` line; a line with `#` names those after it.
fn in_readings(text: &str) -> Result<Vec<Edge>, String> {
    let mut all: Vec<Edge> = vec![];
    let (mut name, mut count, mut piece) = ("", 0, vec![]);
    for line in text.lines() {
        match line.split_once(' ').map(|(word, rest)| (word, rest.trim())) {
            Some(("#", rest)) => (name, count) = (rest, 0),
            Some(("sheet" | "call", rest)) => piece.push(rest),
            Some(("answer", answer)) => {
                let [sheet, call] = piece[..] else { return Err(format!("broken: {line}")) };
                count += 1;
                let name = format!("reading {name}, sheet {count}");
                let edge = edge_of(name, sheet, call, answer);
                all.push(edge.ok_or_else(|| format!("broken: {call}"))?);
                piece.clear();
            }
            _ => {}
        }
    }
    Ok(all)
}

// ---- in the papers -----------------------------------------------------------------

/// The rows of a paper's tables whose last three cells are a sheet, a call (`LEVEL
/// SWEEP`, perhaps the buffer's length) and an answer, each in backticks and nothing
/// else. An answer is a refusal as a negative number, or rows. Those of request 2 stand
/// under a heading of its own.
fn in_paper(name: &str, request_2: bool) -> Result<Vec<Edge>, String> {
    let path = format!("{}/../../docs/{name}", env!("CARGO_MANIFEST_DIR"));
    let text = std::fs::read_to_string(&path).map_err(|e| format!("{path}: {e}"))?;
    let mut all = vec![];
    let mut here = false;
    for line in text.lines() {
        if line.starts_with("## ") {
            here = line.starts_with("## Request 2");
        }
        if here == request_2 {
            all.extend(table_row(name, line));
        }
    }
    Ok(all)
}

fn table_row(paper: &str, line: &str) -> Option<Edge> {
    let cells: Vec<&str> = line.trim().strip_prefix('|')?.strip_suffix('|')?.split('|').collect();
    let [first, .., sheet, call, answer] = cells[..] else { return None };
    let name = format!("docs/{paper} {}", first.trim());
    edge_of(name, code(sheet)?, code(call)?, code(answer)?)
}

/// The rows of a sheet, a call and its answer as the papers write them.
fn edge_of(name: String, sheet: &str, call: &str, answer: &str) -> Option<Edge> {
    let numbers: Vec<usize> = call.split(' ').map(|n| n.parse().ok()).collect::<Option<_>>()?;
    let (level, sweep, cap) = match numbers[..] {
        [level, sweep] => (level, sweep, MAX_SHEET),
        [level, sweep, cap] => (level, sweep, cap),
        _ => return None,
    };
    let want = match answer.parse() {
        Ok(n) => Want::Returns(n),
        Err(_) => Want::Bytes(from_rows(answer)),
    };
    let case = Case { level: level as u32, sweep: sweep as u32, cap, sheet: from_rows(sheet) };
    Some(Edge { name, case, want })
}

/// The text of a cell that is one piece of code.
fn code(cell: &str) -> Option<&str> {
    let text = cell.trim().strip_prefix('`')?.strip_suffix('`')?;
    (!text.contains('`')).then_some(text)
}

// ---- a reused optimizer ------------------------------------------------------------

/// One optimizer for two sheets: the first defines value 0 in block 0, and the
/// second, which never defines it, then answers otherwise than a fresh one.
fn reuse_shows() -> bool {
    let sheet = |rows| read(&from_rows(rows)).unwrap();
    let first = sheet("slots,0 / reg,0,0,0 / value,0,- / block,0,1,-,1 / op,0,def,0,f0,r0");
    let second = sheet(
        "slots,0 / reg,0,0,0 / value,0,- / block,0,1,-,1 / block,1,1,0,0 / succ,0,1 / pred,1,0 / edit,0,move,r0,r0,0 / edit,1,move,r0,r0,0",
    );
    let answer = |s: &Sheet, optimizer: &mut MoveOptimizer| {
        let mut p = run::build(s);
        run::optimise(&mut p, optimizer, 2);
        to_rows(&run::write(&run::outcome(&p)))
    };
    let fresh = answer(&second, &mut MoveOptimizer::new());
    let mut used = MoveOptimizer::new();
    answer(&first, &mut used);
    let kept = "edit,0,move,r0,r0,0 / edit,1,move,r0,r0,0 / count,0,0,0,0,0,0,0,0,0";
    let gone = "edit,0,move,r0,r0,0 / edit,1,none,-,-,- / count,0,0,1,0,0,0,0,0,0";
    fresh.starts_with(kept) && answer(&second, &mut used).starts_with(gone)
}

/// A sheet that 6 refuses, given to the originals past the checks: its emergency slot
/// holds a value. Only their debug assertions mind.
fn assertions_show() -> bool {
    let rows = "slots,1 / reg,0,0,0 / value,0,0 / block,0,1,-,1 / edit,0,move,s0,r0,0 / edit,0,espill,s0,r0,- / edit,0,ereload,r0,s0,-";
    let sheet = read(&from_rows(rows)).unwrap();
    assert_eq!(sheet.refusal(), Some(6));
    let panics = run::try_run(&sheet, 1, 0).is_none();
    panics == cfg!(debug_assertions)
}

// ---- by hand -----------------------------------------------------------------------

struct List {
    all: Vec<Edge>,
}

impl List {
    fn raw(&mut self, name: &str, sheet: &[u8], level: u32, sweep: u32, cap: usize, want: i64) {
        let case = Case { level, sweep, cap, sheet: sheet.to_vec() };
        self.all.push(Edge { name: name.to_string(), case, want: Want::Returns(want) });
    }
    /// Level 1 with the sweep, 65,536 bytes.
    fn rows(&mut self, name: &str, rows: &str, want: i64) {
        self.raw(name, &from_rows(rows), 1, 1, MAX_SHEET, want);
    }
    fn text(&mut self, name: &str, rows: &str, level: u32, sweep: u32, answer: &str) {
        self.raw(name, &from_rows(rows), level, sweep, MAX_SHEET, 0);
        self.all.last_mut().unwrap().want = Want::Bytes(from_rows(answer));
    }
}

/// An accepted sheet of so many bytes: `param` rows of 14 and of 15 bytes.
fn of_length(len: usize) -> Vec<u8> {
    let values: String = (0..11).map(|v| format!("value,{v},- / ")).collect();
    let mut sheet = from_rows(&format!("slots,1 / {values}block,0,1,-,1"));
    let long = (len - sheet.len()) % 14;
    let short = (len - sheet.len() - 15 * long) / 14;
    (0..short).for_each(|_| sheet.extend(from_rows("param,0,0,s0")));
    (0..long).for_each(|_| sheet.extend(from_rows("param,0,10,s0")));
    sheet
}

/// The smallest accepted sheet answers with its count row, 25 bytes.
const SMALLEST: &str = "slots,0 / block,0,1,-,1";
const END: &str = "block,0,1,-,1";

fn by_hand() -> Vec<Edge> {
    let mut l = List { all: vec![] };
    calls(&mut l);
    rows(&mut l);
    limits(&mut l);
    names(&mut l);
    blocks(&mut l);
    operands(&mut l);
    edits(&mut l);
    buffers(&mut l);
    answers(&mut l);
    l.all
}

/// Refusal 7.
fn calls(l: &mut List) {
    l.raw("7 level 4", &from_rows(SMALLEST), 4, 0, 65_536, -7);
    l.raw("7 sweep 2", &from_rows(SMALLEST), 0, 2, 65_536, -7);
    l.raw("7 before 1", b"", 0, 2, 65_536, -7);
    l.raw("7 before 8", &from_rows(SMALLEST), 4, 0, 0, -7);
}

/// Refusal 1.
fn rows(l: &mut List) {
    l.raw("1 empty", b"", 1, 1, 65_536, -1);
    for (name, text) in [
        ("no line end", "slots,0"),
        ("LF only", "slots,0\n"),
        ("CR only", "slots,0\r"),
        ("LF CR", "slots,0\n\r"),
        ("CR CR LF", "slots,0\r\r\n"),
        ("empty row first", "\r\nslots,0\r\n"),
        ("empty row last", "slots,0\r\n\r\n"),
        ("last row without end", "slots,0\r\nblock,0,1,-,1"),
        ("quotes", "\"slots\",0\r\n"),
        ("quoted number", "slots,\"0\"\r\n"),
        ("capital", "Slots,0\r\n"),
        ("space", "slots, 0\r\n"),
        ("plus", "slots,+0\r\n"),
        ("no number", "slots,\r\n"),
        ("no field", "slots\r\n"),
        ("one field more", "slots,0,0\r\n"),
        ("empty field more", "slots,0,\r\n"),
        ("leading zero", "slots,00\r\n"),
        ("leading zero 2", "slots,01\r\n"),
        ("six digits", "slots,100000\r\n"),
        ("dash", "slots,-\r\n"),
        ("slots twice", "slots,0\r\nslots,0\r\n"),
        ("slots not first", "reg,0,0,0\r\nslots,0\r\n"),
        ("no slots", "block,0,1,-,1\r\n"),
        ("no such kind", "slots,0\r\nregs,0,0,0\r\n"),
        ("reg without unit", "slots,0\r\nreg,0,0\r\n"),
        ("reg flag 2", "slots,0\r\nreg,0,2,0\r\n"),
        ("reg from 1", "slots,0\r\nreg,1,0,0\r\n"),
        ("reg gap", "slots,0\r\nreg,0,0,0\r\nreg,2,0,1\r\n"),
        ("reg twice", "slots,0\r\nreg,0,0,0\r\nreg,0,0,1\r\n"),
        ("class flag 2", "slots,0\r\nclass,0,2\r\n"),
        ("class empty member", "slots,0\r\nclass,0,1,\r\n"),
        ("group without register", "slots,0\r\nreg,0,0,0\r\nclass,0,1,0\r\ngroup,0,0\r\n"),
        ("vgroup without value", "slots,0\r\nvalue,0,-\r\nvgroup,0\r\n"),
        ("home s0", "slots,1\r\nvalue,0,s0\r\n"),
        ("block entry -", "slots,0\r\nblock,0,1,-,-\r\n"),
        ("block insts -", "slots,0\r\nblock,0,-,-,1\r\n"),
        ("succ without member", "slots,0\r\nblock,0,1,-,1\r\nsucc,0\r\n"),
        ("op place -", "slots,1\r\nvalue,0,0\r\nblock,0,1,-,1\r\nop,0,use,0,c0,-\r\n"),
        ("op subject - on use", "slots,1\r\nvalue,0,0\r\nblock,0,1,-,1\r\nop,0,use,-,c0,s0\r\n"),
        (
            "op fixed with a subject",
            "slots,0\r\nreg,0,0,0\r\nblock,0,1,-,1\r\nop,0,fixed,0,f0,r0\r\n",
        ),
        ("op bare place", "slots,1\r\nvalue,0,0\r\nblock,0,1,-,1\r\nop,0,use,0,c0,0\r\n"),
        ("clob without unit", "slots,0\r\nreg,0,0,0\r\nblock,0,1,-,1\r\nclob,0\r\n"),
        ("move without value", "slots,1\r\nvalue,0,0\r\nblock,0,1,-,1\r\nedit,0,move,s0,s0,-\r\n"),
        ("move without from", "slots,1\r\nvalue,0,0\r\nblock,0,1,-,1\r\nedit,0,move,s0,-,0\r\n"),
        ("remat with from", "slots,1\r\nvalue,0,0\r\nblock,0,1,-,1\r\nedit,0,remat,s0,s0,0\r\n"),
        (
            "espill with value",
            "slots,1\r\nreg,0,0,0\r\nvalue,0,-\r\nblock,0,1,-,1\r\nedit,0,espill,s0,r0,0\r\n",
        ),
        ("espill from -", "slots,1\r\nblock,0,1,-,1\r\nedit,0,espill,s0,-,-\r\n"),
        ("none with place", "slots,1\r\nblock,0,1,-,1\r\nedit,0,none,s0,-,-\r\n"),
        ("edit of five fields", "slots,1\r\nblock,0,1,-,1\r\nedit,0,none,-,-\r\n"),
        (
            "op falls",
            "slots,0\r\nreg,0,0,0\r\nblock,0,2,-,1\r\nop,1,fixed,-,f0,r0\r\nop,0,fixed,-,f0,r0\r\n",
        ),
        (
            "clob of one instruction twice",
            "slots,0\r\nreg,0,0,0\r\nreg,1,0,1\r\nblock,0,1,-,1\r\nclob,0,0\r\nclob,0,1\r\n",
        ),
        (
            "param falls",
            "slots,1\r\nvalue,0,0\r\nblock,0,1,-,1\r\nblock,1,1,-,1\r\nparam,1,0,s0\r\nparam,0,0,s0\r\n",
        ),
        (
            "succ of one block twice",
            "slots,0\r\nblock,0,1,-,1\r\nblock,1,1,0,0\r\nsucc,0,1\r\nsucc,0,1\r\n",
        ),
    ] {
        l.raw(&format!("1 {name}"), text.as_bytes(), 1, 1, 65_536, -1);
    }
    for (rows, want) in [(0, 25), (1, -1)] {
        l.raw(
            &format!("1 {} bytes", MAX_SHEET + rows),
            &of_length(MAX_SHEET + rows),
            1,
            1,
            25,
            want,
        );
    }
    l.rows("class of no register", "slots,0 / class,0,1 / block,0,1,-,1", 25);
    l.rows("slots,0 alone: no entry", "slots,0", -4);
    l.rows("1 before 2", "slots,65 / reg,1,0,0", -1);

    l.rows("1 class before reg", "slots,0 / class,0,1 / reg,0,0,0 / block,0,1,-,1", -1);
    l.rows(
        "1 op after clob",
        "slots,0 / reg,0,0,0 / block,0,2,-,1 / op,0,fixed,-,f0,r0 / clob,0,0 / op,1,fixed,-,f0,r0",
        -1,
    );
}

/// Refusal 2.
fn limits(l: &mut List) {
    l.rows("2 slots 64", "slots,64 / block,0,1,-,1", 25);
    l.rows("2 slots 65", "slots,65 / block,0,1,-,1", -2);
    l.rows("2 slots 99999", "slots,99999", -2);
    let many = |n: usize, f: &dyn Fn(usize) -> String| -> String {
        (0..n).map(|k| f(k) + " / ").collect()
    };
    for (n, want) in [(128, 25), (129, -2)] {
        let r = many(n, &|k| format!("reg,{k},0,0"));
        l.rows(&format!("2 {n} registers"), &format!("slots,0 / {r}{END}"), want);
    }
    l.rows("2 unit 127", "slots,0 / reg,0,0,127 / block,0,1,-,1", 25);
    l.rows("2 unit 128", "slots,0 / reg,0,0,128 / block,0,1,-,1", -2);
    for (n, want) in [(16, 25), (17, -2)] {
        let r = many(n, &|k| format!("class,{k},0"));
        l.rows(&format!("2 {n} classes"), &format!("slots,0 / {r}{END}"), want);
    }
    for (n, want) in [(32, 25), (33, -2)] {
        let r = many(33, &|k| format!("reg,{k},0,{k}"));
        let g = many(n, &|k| format!("group,{k},0,{k}"));
        l.rows(&format!("2 {n} groups"), &format!("slots,0 / {r}class,0,0 / {g}{END}"), want);
    }
    for (n, want) in [(256, 25), (257, -2)] {
        let r = many(n, &|k| format!("value,{k},-"));
        l.rows(&format!("2 {n} values"), &format!("slots,0 / {r}{END}"), want);
    }
    for (n, want) in [(32, 25), (33, -2)] {
        let r = many(n, &|k| format!("vgroup,{k},0"));
        l.rows(&format!("2 {n} value groups"), &format!("slots,0 / value,0,- / {r}{END}"), want);
    }
    for (n, want) in [(64, 25), (65, -2)] {
        let r = (0..n).map(|k| format!("block,{k},1,-,1")).collect::<Vec<_>>().join(" / ");
        l.rows(&format!("2 {n} blocks"), &format!("slots,0 / {r}"), want);
    }
    l.rows("2 512 instructions", "slots,0 / block,0,511,-,1 / block,1,1,-,1", 25);
    l.rows("2 513 instructions", "slots,0 / block,0,512,-,1 / block,1,1,-,1", -2);
    for (n, want) in [(2048, 25), (2049, -2)] {
        let r = (0..n).map(|_| "op,0,fixed,-,f0,r0").collect::<Vec<_>>().join(" / ");
        l.rows(&format!("2 {n} operands"), &format!("slots,0 / reg,0,0,0 / {END} / {r}"), want);
    }
    for (n, want) in [(1024, 25 + 19 * 1024), (1025, -2)] {
        let r = (0..n).map(|_| "edit,0,none,-,-,-").collect::<Vec<_>>().join(" / ");
        l.rows(&format!("2 {n} edits"), &format!("slots,0 / {END} / {r}"), want);
    }
    let uses = |u: u32| {
        let r = many(128, &|_| "op,0,use,0,c0,s0".to_string());
        format!("slots,1 / class,0,1 / value,0,- / {END} / {r}op,0,def,0,u{u},s0")
    };
    l.rows("2 reuse of operand 127", &uses(127), 25);
    l.rows("2 reuse index 128", &uses(128), -2);
    l.rows(
        "5 reuse of an absent operand",
        "slots,1 / value,0,- / block,0,1,-,1 / op,0,def,0,u127,s0",
        -5,
    );
    l.rows(
        "2 reuse index 128 on a use",
        "slots,1 / value,0,- / block,0,1,-,1 / op,0,use,0,u128,s0",
        -2,
    );
    l.rows("2 clob unit 128", "slots,0 / reg,0,0,0 / block,0,1,-,1 / clob,0,128", -2);
    l.rows("3 clob unit 127 absent", "slots,0 / reg,0,0,0 / block,0,1,-,1 / clob,0,127", -3);
    l.rows("3 s64", "slots,64 / value,0,- / block,0,1,-,1 / param,0,0,s64", -3);
    l.rows("3 instruction 512", "slots,0 / block,0,512,-,1 / edit,512,none,-,-,-", -3);
    l.rows("3 home 64", "slots,1 / value,0,64 / block,0,1,-,1", -3);
}

/// Refusal 3.
fn names(l: &mut List) {
    l.rows("3 class names an absent register", "slots,0 / class,0,1,0 / block,0,1,-,1", -3);
    l.rows(
        "3 register twice in a class",
        "slots,0 / reg,0,0,0 / class,0,1,0,0 / block,0,1,-,1",
        -3,
    );
    l.rows("3 unit twice in a register", "slots,0 / reg,0,0,0,0 / block,0,1,-,1", -3);
    l.rows("3 group of an absent class", "slots,0 / reg,0,0,0 / group,0,0,0 / block,0,1,-,1", -3);
    l.rows(
        "3 two groups, one class and first register",
        "slots,0 / reg,0,0,0 / reg,1,0,1 / class,0,0 / group,0,0,0 / group,1,0,0,1 / block,0,1,-,1",
        -3,
    );
    l.rows(
        "two groups, two classes, one first register",
        "slots,0 / reg,0,0,0 / class,0,0 / class,1,0 / group,0,0,0 / group,1,1,0 / block,0,1,-,1",
        25,
    );
    l.rows("3 absent home", "slots,0 / value,0,0 / block,0,1,-,1", -3);
    l.rows("3 value twice in a group", "slots,0 / value,0,- / vgroup,0,0,0 / block,0,1,-,1", -3);
    l.rows(
        "3 succ member twice",
        "slots,0 / block,0,1,-,1 / block,1,1,0,0 / succ,0,1,1 / pred,1,0",
        -3,
    );
    l.rows("3 succ of an absent block", "slots,0 / block,0,1,-,1 / succ,1,0", -3);
    l.rows(
        "3 op at an absent instruction",
        "slots,0 / reg,0,0,0 / block,0,1,-,1 / op,1,fixed,-,f0,r0",
        -3,
    );
    l.rows("3 edit after the last instruction", "slots,0 / block,0,1,-,1 / edit,1,none,-,-,-", -3);
    l.rows("3 edit names an absent value", "slots,1 / block,0,1,-,1 / edit,0,remat,s0,-,0", -3);
    l.rows(
        "3 espill names an absent register",
        "slots,1 / block,0,1,-,1 / edit,0,espill,s0,r0,-",
        -3,
    );
    l.rows(
        "3 clob of a unit that no register has",
        "slots,0 / reg,0,0,0 / block,0,1,-,1 / clob,0,1",
        -3,
    );
    l.rows("3 idom no block", "slots,0 / block,0,1,1,1", -3);
    l.rows("3 before 4: no entry, absent home", "slots,0 / value,0,0 / block,0,1,-,0", -3);
    l.rows(
        "a value twice among a block's parameters",
        "slots,1 / value,0,0 / block,0,1,-,1 / param,0,0,s0 / param,0,0,s0",
        25,
    );
    l.rows(
        "two definitions of one value in one instruction",
        "slots,0 / reg,0,0,0 / value,0,- / block,0,1,-,1 / op,0,def,0,f0,r0 / op,0,def,0,f0,r0",
        25,
    );

    // Lists are in any order: only the rows' first fields rise.
    l.rows(
        "a clob list may fall",
        "slots,0 / reg,0,0,0 / reg,1,0,1 / block,0,1,-,1 / clob,0,1,0",
        25,
    );
    l.rows(
        "succ and pred lists may fall",
        "slots,0 / block,0,1,-,1 / block,1,1,0,0 / block,2,1,0,0 / block,3,1,0,0 / succ,0,2,1 / succ,1,3 / succ,2,3 / pred,1,0 / pred,2,0 / pred,3,2,1",
        25,
    );
    l.rows("a register's units may fall", "slots,0 / reg,0,0,1,0 / block,0,1,-,1", 25);
}

/// Refusals 4, 9, 10, 11 and 12, with the row of the block.
fn blocks(l: &mut List) {
    l.rows("4 no entry", "slots,0 / block,0,1,-,0", -4);
    l.rows("4 no instructions", "slots,0 / block,0,0,-,1", -204);
    l.rows("9 succ without pred", "slots,0 / block,0,1,-,1 / block,1,1,0,0 / succ,0,1", -209);
    l.rows("9 pred without succ", "slots,0 / block,0,1,-,1 / block,1,1,0,0 / pred,1,0", -309);
    l.rows("two blocks", "slots,0 / block,0,1,-,1 / block,1,1,0,0 / succ,0,1 / pred,1,0", 25);
    l.rows(
        "10 entry with predecessor",
        "slots,0 / block,0,1,-,1 / block,1,1,0,1 / succ,0,1 / pred,1,0",
        -310,
    );
    l.rows("11 idom itself", "slots,0 / block,0,1,0,1", -211);
    l.rows("11 idom larger", "slots,0 / block,0,1,1,1 / block,1,1,-,1", -211);
    l.rows("an entry with an idom", "slots,0 / block,0,1,-,1 / block,1,1,0,1", 25);
    l.rows("12 not reached", "slots,0 / block,0,1,-,1 / block,1,1,0,0", -312);
    l.rows(
        "11 two blocks that reach each other only",
        "slots,0 / block,0,1,-,1 / block,1,1,-,0 / block,2,1,-,0 / succ,1,2 / succ,2,1 / pred,1,2 / pred,2,1",
        -311,
    );
    l.rows(
        "11 sole predecessor itself",
        "slots,0 / block,0,1,-,1 / block,1,1,-,0 / succ,1,1 / pred,1,1",
        -311,
    );
    l.rows(
        "self edge beside another predecessor",
        "slots,0 / block,0,1,-,1 / block,1,1,0,0 / succ,0,1 / succ,1,1 / pred,1,0,1",
        25,
    );
    l.rows(
        "11 sole predecessor larger",
        "slots,0 / block,0,1,-,0 / block,1,1,-,1 / succ,1,0 / pred,0,1",
        -211,
    );
    l.rows(
        "block 0 reached from two later entries",
        "slots,0 / block,0,1,-,0 / block,1,1,-,1 / block,2,1,-,1 / succ,1,0 / succ,2,0 / pred,0,1,2",
        25,
    );
    l.rows(
        "10 critical edge",
        "slots,0 / block,0,1,-,1 / block,1,1,0,0 / block,2,1,0,0 / succ,0,1,2 / succ,1,2 / pred,1,0 / pred,2,0,1",
        -210,
    );
    l.rows(
        "12 three blocks in a ring that nothing enters",
        "slots,0 / block,0,1,-,1 / block,1,1,-,0 / block,2,1,-,0 / block,3,1,-,0 / succ,1,2,3 / succ,2,1 / succ,3,1 / pred,1,2,3 / pred,2,1 / pred,3,1",
        -312,
    );
    let values: String = (0..98).map(|v| format!("value,{v},- / ")).collect();
    l.rows("4 at row 100", &format!("slots,0 / {values}block,0,0,-,1"), -10_004);
    l.rows("12 the last of 64 blocks", &format!("{} / block,63,1,-,0", most_rows()), -52_912);
}

/// As many rows before the last block as there can be: a sheet lacks only block 63.
fn most_rows() -> String {
    let mut l = vec!["slots,0".to_string()];
    l.extend((0..128).map(|r| format!("reg,{r},0,{r}")));
    l.extend((0..16).map(|c| format!("class,{c},0")));
    l.extend((0..32).map(|g| format!("group,{g},0,{g}")));
    l.extend((0..256).map(|v| format!("value,{v},-")));
    l.extend((0..32).map(|g| format!("vgroup,{g},0")));
    l.extend((0..63).map(|b| format!("block,{b},1,-,1")));
    l.join(" / ")
}

/// Refusal 5.
fn operands(l: &mut List) {
    let r1 = "slots,1 / reg,0,0,0 / reg,1,0,1";
    l.rows(
        "5 register not in class",
        &format!("{r1} / class,0,1,0 / value,0,- / {END} / op,0,use,0,c0,r1"),
        -5,
    );
    l.rows(
        "5 slot without flag",
        &format!("{r1} / class,0,0,0 / value,0,- / {END} / op,0,use,0,c0,s0"),
        -5,
    );
    l.rows(
        "slot in a class of no register",
        &format!("{r1} / class,0,1 / value,0,- / {END} / op,0,use,0,c0,s0"),
        25,
    );
    l.rows(
        "5 fixed place another register",
        &format!("{r1} / value,0,- / {END} / op,0,use,0,f0,r1"),
        -5,
    );
    l.rows("5 fixed place a slot", &format!("{r1} / value,0,- / {END} / op,0,use,0,f0,s0"), -5);
    l.rows("5 fixed without f", &format!("{r1} / class,0,1,0 / {END} / op,0,fixed,-,c0,r0"), -5);
    l.rows(
        "5 fixed with u",
        &format!("{r1} / class,0,1,0 / value,0,- / {END} / op,0,use,0,c0,r0 / op,0,fixed,-,u0,r0"),
        -5,
    );
    l.rows(
        "5 early with u",
        &format!("{r1} / class,0,1,0 / value,0,- / {END} / op,0,use,0,c0,r0 / op,0,early,0,u0,r0"),
        -5,
    );
    l.rows(
        "reuse before its use",
        &format!("{r1} / class,0,1,0 / value,0,- / {END} / op,0,def,0,u1,r0 / op,0,use,0,c0,r0"),
        25,
    );
    l.rows("two reuses of one use", &format!("{r1} / class,0,1,0 / value,0,- / {END} / op,0,use,0,c0,r0 / op,0,def,0,u0,r0 / op,0,def,0,u0,r0"), 25);
    l.rows(
        "5 reuse of itself",
        &format!("{r1} / class,0,1,0 / value,0,- / {END} / op,0,def,0,u0,r0"),
        -5,
    );
    l.rows(
        "5 reuse of a def",
        &format!("{r1} / class,0,1,0 / value,0,- / {END} / op,0,def,0,c0,r0 / op,0,def,0,u0,r0"),
        -5,
    );
    l.rows(
        "5 reuse of a fixed-register use",
        &format!("{r1} / value,0,- / {END} / op,0,use,0,f0,r0 / op,0,def,0,u0,r0"),
        -5,
    );
    l.rows(
        "5 reuse elsewhere",
        &format!("{r1} / class,0,1,0,1 / value,0,- / {END} / op,0,use,0,c0,r0 / op,0,def,0,u0,r1"),
        -5,
    );
    l.rows(
        "5 reuse of another instruction's use",
        &format!(
            "{r1} / class,0,1,0 / value,0,- / block,0,2,-,1 / op,0,use,0,c0,r0 / op,1,def,0,u0,r0"
        ),
        -5,
    );
    let g = "slots,1 / reg,0,0,0 / reg,1,0,1 / class,0,1,0 / class,1,1,0";
    let gv =
        format!("{g} / group,0,0,0,1 / value,0,- / value,1,- / vgroup,0,0,1 / vgroup,1,0 / {END}");
    l.rows("group operand", &format!("{gv} / op,0,defg,0,c0,r0"), 25);
    l.rows("5 group with f", &format!("{gv} / op,0,useg,0,f0,r0"), -5);
    l.rows("5 group in a slot", &format!("{gv} / op,0,useg,0,c0,s0"), -5);
    l.rows("5 group of another length", &format!("{gv} / op,0,useg,1,c0,r0"), -5);
    l.rows("5 group of another class", &format!("{gv} / op,0,useg,0,c1,r0"), -5);
    l.rows("group reuse", &format!("{gv} / op,0,useg,0,c0,r0 / op,0,defg,0,u0,r0"), 25);
    l.rows(
        "5 group reuse of another length",
        &format!("{gv} / op,0,useg,0,c0,r0 / op,0,defg,1,u0,r0"),
        -5,
    );
    l.rows("5 def reuses a useg", &format!("{gv} / op,0,useg,0,c0,r0 / op,0,def,0,u0,r0"), -5);
    l.rows("5 defg reuses a use", &format!("{gv} / op,0,use,0,c0,r0 / op,0,defg,0,u0,r0"), -5);
    l.rows("5 earlyg with u", &format!("{gv} / op,0,useg,0,c0,r0 / op,0,earlyg,0,u0,r0"), -5);
    l.rows(
        "5 group's first register not in the class's list",
        "slots,0 / reg,0,0,0 / class,0,0 / group,0,0,0 / value,0,- / vgroup,0,0 / block,0,1,-,1 / op,0,useg,0,c0,r0",
        -5,
    );
    l.rows(
        "group's second register not in the class's list",
        &format!("{gv} / op,0,earlyg,0,c0,r0"),
        25,
    );
}

/// Refusal 6.
fn edits(l: &mut List) {
    let e = "slots,2 / reg,0,0,0 / value,0,0 / block,0,2,-,1";
    l.rows("6 edits fall", &format!("{e} / edit,1,none,-,-,- / edit,0,none,-,-,-"), -6);
    l.rows("6 espill to a register", &format!("{e} / edit,0,espill,r0,r0,-"), -6);
    l.rows(
        "6 ereload to a slot",
        &format!("{e} / edit,0,espill,s1,r0,- / edit,0,ereload,s1,r0,-"),
        -6,
    );
    l.rows("pair", &format!("{e} / edit,0,espill,s1,r0,- / edit,1,ereload,r0,s1,-"), 72);
    l.rows("6 never closed", &format!("{e} / edit,0,espill,s1,r0,-"), -6);
    l.rows("6 reload first", &format!("{e} / edit,0,ereload,r0,s1,- / edit,0,espill,s1,r0,-"), -6);
    l.rows("6 home slot", &format!("{e} / edit,0,espill,s0,r0,- / edit,0,ereload,r0,s0,-"), -6);
    l.rows(
        "6 closed in the next block",
        "slots,1 / reg,0,0,0 / block,0,1,-,1 / block,1,1,0,0 / succ,0,1 / pred,1,0 / edit,0,espill,s0,r0,- / edit,1,ereload,r0,s0,-",
        -6,
    );
    l.rows(
        "6 shared unit",
        "slots,1 / reg,0,0,0 / reg,1,0,1,0 / block,0,1,-,1 / edit,0,espill,s0,r0,- / edit,0,ereload,r0,s0,-",
        -6,
    );
    l.rows(
        "6 two slots",
        "slots,2 / reg,0,0,0 / block,0,1,-,1 / edit,0,espill,s0,r0,- / edit,0,ereload,r0,s1,-",
        -6,
    );
    l.rows(
        "6 nested",
        "slots,2 / reg,0,0,0 / reg,1,0,1 / block,0,1,-,1 / edit,0,espill,s0,r0,- / edit,0,espill,s1,r1,- / edit,0,ereload,r1,s1,- / edit,0,ereload,r0,s0,-",
        -6,
    );
    l.rows(
        "5 before 6",
        &format!("{e} / op,0,fixed,-,u0,r0 / edit,1,none,-,-,- / edit,0,none,-,-,-"),
        -5,
    );
}

/// Refusal 8.
fn buffers(l: &mut List) {
    l.raw("8 buffer 24", &from_rows(SMALLEST), 1, 1, 24, -8);
    l.raw("8 buffer 25", &from_rows(SMALLEST), 1, 1, 25, 25);
    l.raw("8 buffer 0", &from_rows(SMALLEST), 1, 1, 0, -8);
}

/// Answers where a rule is easily missed.
fn answers(l: &mut List) {
    l.text(
        "a memory register is memory: removal counts as reload, use folds",
        "slots,0 / reg,0,0,0 / reg,1,1,1 / class,0,0,0,1 / value,0,- / block,0,2,-,1 / op,0,def,0,f0,r0 / op,1,use,0,c0,r1 / edit,1,move,r0,r1,0",
        1,
        0,
        "fold,1,0,r0 / edit,1,none,-,-,- / count,0,1,0,0,0,0,1,0,0",
    );
    l.text(
        "a slot-to-slot move takes a register as its source",
        "slots,2 / reg,0,0,0 / value,0,0 / block,0,2,-,1 / op,0,def,0,f0,r0 / edit,1,move,s1,s0,0",
        1,
        0,
        "edit,1,move,s1,r0,0 / count,0,0,0,0,0,1,0,0,0",
    );
    l.text(
        "spill removed by dominance: the slot is not noted, so the next is removed by dominance too",
        "slots,1 / reg,0,0,0 / value,0,0 / block,0,1,-,1 / block,1,1,0,0 / succ,0,1 / pred,1,0 / edit,0,move,s0,r0,0 / edit,1,move,s0,r0,0 / edit,1,move,s0,r0,0",
        1,
        0,
        "edit,0,move,s0,r0,0 / edit,1,none,-,-,- / edit,1,none,-,-,- / count,0,0,0,0,2,0,0,0,0",
    );
    l.text(
        "Global: a home-slot definition in block 1 does not remove the spill in block 0",
        "slots,1 / reg,0,0,0 / class,0,1 / value,0,0 / block,0,1,-,1 / block,1,1,0,0 / block,2,1,1,0 / succ,0,1 / succ,1,2 / pred,1,0 / pred,2,1 / op,1,def,0,c0,s0 / edit,0,move,s0,r0,0",
        3,
        0,
        "edit,0,move,s0,r0,0 / count,2,0,0,0,0,0,0,0,0",
    );
    l.text(
        "Global: last spilled block from the preparing walk removes a spill before the definition",
        "slots,1 / reg,0,0,0 / class,0,1 / value,0,0 / block,0,2,-,1 / block,1,1,0,0 / succ,0,1 / pred,1,0 / op,1,def,0,c0,s0 / edit,0,move,s0,r0,0",
        3,
        0,
        "edit,0,none,-,-,- / count,1,0,0,0,1,0,0,0,0",
    );
    l.text(
        "an early definition before the fold",
        "slots,1 / reg,0,0,0 / class,0,1,0 / value,0,0 / value,1,- / block,0,2,-,1 / op,0,def,0,c0,r0 / op,1,use,0,c0,s0 / op,1,early,1,c0,r0",
        1,
        0,
        "count,0,0,0,0,0,0,0,0,0",
    );
    l.text(
        "an early definition of the used value is what folds",
        "slots,1 / reg,0,0,0 / class,0,1,0 / value,0,0 / block,0,1,-,1 / op,0,use,0,c0,s0 / op,0,early,0,c0,r0",
        1,
        0,
        "fold,0,0,r0 / count,0,0,0,0,0,0,1,0,0",
    );
    l.text(
        "a clobbered unit that the instruction defines is not forgotten",
        "slots,0 / reg,0,0,0 / value,0,- / block,0,2,-,1 / op,0,def,0,f0,r0 / clob,0,0 / edit,1,move,r0,r0,0",
        1,
        0,
        "edit,1,none,-,-,- / count,0,0,1,0,0,0,0,0,0",
    );
    l.text(
        "ereload may bring back a value defined elsewhere since",
        "slots,1 / reg,0,0,0 / reg,1,0,1 / value,0,- / block,0,3,-,1 / op,0,def,0,f0,r0 / op,1,def,0,f1,r1 / edit,1,espill,s0,r0,- / edit,2,ereload,r0,s0,- / edit,2,move,r0,r1,0",
        1,
        0,
        "edit,1,espill,s0,r0,- / edit,2,ereload,r0,s0,- / edit,2,none,-,-,- / count,0,0,1,0,0,0,0,0,0",
    );
    l.text(
        "values with one home: defining one in a register empties the slot of the other",
        "slots,1 / reg,0,0,0 / value,0,0 / value,1,0 / block,0,2,-,1 / op,0,def,1,f0,r0 / edit,0,move,s0,r0,0 / edit,1,move,s0,r0,1 / edit,1,move,s0,r0,0",
        1,
        0,
        "edit,0,move,s0,r0,0 / edit,1,move,s0,r0,1 / edit,1,none,-,-,- / count,0,0,0,0,1,0,0,0,0",
    );
    let wide = "slots,1 / reg,0,0,0,1 / value,0,- / block,0,3,-,1 / op,0,def,0,f0,r0";
    let pair = "edit,2,espill,s0,r0,- / edit,2,ereload,r0,s0,- / edit,2,move,r0,r0,0";
    l.text(
        "ereload of a wide register, whole",
        &format!("{wide} / {pair}"),
        1,
        0,
        "edit,2,espill,s0,r0,- / edit,2,ereload,r0,s0,- / edit,2,none,-,-,- / count,0,0,1,0,0,0,0,0,0",
    );
    l.text(
        "ereload of a wide register, one unit clobbered before",
        &format!("{wide} / clob,1,1 / {pair}"),
        1,
        0,
        "edit,2,espill,s0,r0,- / edit,2,ereload,r0,s0,- / edit,2,move,r0,r0,0 / count,0,0,0,0,0,0,0,0,0",
    );
    let order = "slots,0 / reg,0,0,0 / value,0,- / value,1,- / block,0,1,-,1 / block,1,1,0,0 / succ,0,1 / pred,1,0 / op,0,def,0,f0,r0 / op,0,early,1,f0,r0 / edit,1,move,r0,r0,1";
    l.text(
        "Global's preparing walk takes operands in row order: r0 holds value 1 at block 1",
        order,
        3,
        0,
        "edit,1,none,-,-,- / count,1,0,1,0,0,0,0,0,0",
    );
    l.text(
        "Forward hands on the optimising walk's state: r0 holds value 0 at block 1",
        order,
        2,
        0,
        "edit,1,move,r0,r0,1 / count,0,0,0,0,0,0,0,0,0",
    );
    let never = "slots,0 / reg,0,0,0 / value,0,- / block,0,1,-,1 / block,1,1,0,0 / succ,0,1 / pred,1,0 / edit,0,move,r0,r0,0 / edit,1,move,r0,r0,0";
    l.text(
        "a value never defined is not handed to a sole successor",
        never,
        2,
        0,
        "edit,0,move,r0,r0,0 / edit,1,move,r0,r0,0 / count,0,0,0,0,0,0,0,0,0",
    );
    let several = "slots,0 / reg,0,0,0 / value,0,- / block,0,1,-,1 / block,1,1,0,0 / block,2,1,0,0 / succ,0,1,2 / pred,1,0 / pred,2,0 / edit,0,move,r0,r0,0 / edit,1,move,r0,r0,0";
    l.text(
        "but it is to several",
        several,
        2,
        0,
        "edit,0,move,r0,r0,0 / edit,1,none,-,-,- / count,0,0,1,0,0,0,0,0,0",
    );
}
