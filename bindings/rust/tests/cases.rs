//! Sheets and answers read by types and written again: those of examples/, and the cases of the files that
//! `DRIFTHURDLE_CASES` names, joined by `:`, in the form that `oracle gen` and `oracle mutate` write.
use drifthurdle::{clean, clean_sheet, Answer, Change, Level, Refusal, Sheet};
use std::path::Path;

mod support;

const LEVELS: [Level; 4] = [Level::Off, Level::Local, Level::Forward, Level::Global];

/// What was seen over all cases.
#[derive(Default)]
struct Seen {
    sheets: usize,
    answers: usize,
    unread: usize,
    blocks: usize,
}

/// What the answer should be, made from the sheet's own text and the changes.
fn applied(sheet: &[u8], answer: &Answer) -> String {
    let text = std::str::from_utf8(sheet).unwrap();
    let edits = text.split("\r\n").filter(|row| row.starts_with("edit,"));
    let mut edits: Vec<Vec<String>> = edits.map(|row| row.split(',').map(String::from).collect()).collect();
    let mut rows = String::new();
    for change in answer.changes() {
        match change {
            Change::Fold { inst, operand, reg } => rows += &format!("fold,{inst},{operand},r{reg}\r\n"),
            Change::Source { edit, reg } => edits[edit.index()][4] = format!("r{reg}"),
            Change::Removed { edit } => {
                let none = ["none", "-", "-", "-"].map(String::from);
                edits[edit.index()][2..].clone_from_slice(&none);
            }
        }
    }
    edits.iter().for_each(|edit| rows += &format!("{}\r\n", edit.join(",")));
    rows
}

fn check_answer(bytes: &[u8], sheet: &Sheet, level: Level, sweep: bool, written: &[u8]) {
    let answer = Answer::read(sheet, written).expect("an answer is read");
    assert_eq!(answer.to_bytes(), written);
    assert!(answer.to_string().starts_with(&(applied(bytes, &answer) + "count,")));
    assert_eq!(clean_sheet(sheet, level, sweep), Ok(answer));
}

fn check_refusal(bytes: &[u8], sheet: &Sheet, level: Level, sweep: bool, refusal: Refusal) -> bool {
    assert_eq!(clean_sheet(sheet, level, sweep), Err(refusal));
    let block = refusal.block(sheet);
    assert_eq!(block.is_some(), refusal.row().is_some());
    if let (Some(block), Some(row)) = (block, refusal.row()) {
        let named = bytes.split(|byte| *byte == b'\n').nth(row as usize - 1).unwrap();
        assert!(named.starts_with(format!("block,{block},").as_bytes()));
    }
    block.is_some()
}

fn check(seen: &mut Seen, bytes: &[u8], level: Level, sweep: bool, out: &mut [u8]) {
    let answer = clean(bytes, level, sweep, out);
    match (Sheet::parse(bytes), answer) {
        (None, Ok(_)) => panic!("accepted, and not read"),
        (None, Err(_)) => seen.unread += 1,
        (Some(sheet), answer) => {
            assert_eq!(sheet.to_bytes(), bytes);
            seen.sheets += 1;
            match answer {
                Ok(length) => {
                    check_answer(bytes, &sheet, level, sweep, &out[..length]);
                    seen.answers += 1;
                }
                Err(refusal) => {
                    seen.blocks += usize::from(check_refusal(bytes, &sheet, level, sweep, refusal));
                }
            }
        }
    }
}

#[test]
fn examples() {
    let folder = Path::new(env!("CARGO_MANIFEST_DIR")).join("../../examples");
    let (mut seen, mut out) = (Seen::default(), vec![0; 1 << 17]);
    for entry in std::fs::read_dir(folder).unwrap() {
        let path = entry.unwrap().path();
        if path.extension().is_some_and(|extension| extension == "sheet") {
            let bytes = std::fs::read(path).unwrap();
            LEVELS.iter().for_each(|level| check(&mut seen, &bytes, *level, true, &mut out));
        }
    }
    assert!(seen.answers >= 8 && seen.answers == seen.sheets);
}

#[test]
fn cases() {
    let mut out = vec![0; 1 << 17];
    support::each_file(|name, cases| {
        let mut seen = Seen::default();
        for (numbers, bytes) in cases {
            if let Some(level) = LEVELS.get(numbers[0]) {
                check(&mut seen, bytes, *level, numbers[1] == 1, &mut out);
            }
        }
        let Seen { sheets, answers, unread, blocks } = seen;
        println!("{name}: {sheets} sheets and {answers} answers the same, {unread} refused and not read, {blocks} blocks named");
    });
}
