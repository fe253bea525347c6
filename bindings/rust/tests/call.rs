//! The call from Rust: the worked sheet, refusals, and what is left alone.
use drifthurdle::{clean, Level, Refusal};

const C1: &[u8] = b"slots,1\r\nreg,0,0,0\r\nclass,0,1,0\r\nvalue,0,0\r\nblock,0,3,-,1\r\nop,0,def,0,c0,r0\r\nop,1,use,0,c0,s0\r\nedit,1,move,s0,r0,0\r\n";
const ANSWER: &[u8] = b"fold,1,0,r0\r\nedit,1,none,-,-,-\r\ncount,0,0,0,0,0,0,1,1,0\r\n";

#[test]
fn worked_sheet() {
    let mut out = [7; 60];
    assert_eq!(clean(C1, Level::Local, true, &mut out), Ok(57));
    assert_eq!(&out[..57], ANSWER);
    assert_eq!(out[57..], [7; 3]);
}

#[test]
fn exact_and_short_buffer() {
    let mut out = [7; 57];
    assert_eq!(clean(C1, Level::Local, true, &mut out), Ok(57));
    let mut short = [7; 56];
    assert_eq!(clean(C1, Level::Local, true, &mut short), Err(Refusal::Room));
    assert_eq!(short, [7; 56]);
    assert_eq!(clean(C1, Level::Local, true, &mut []), Err(Refusal::Room));
}

#[test]
fn every_level() {
    let mut out = [0; 100];
    for level in [Level::Off, Level::Local, Level::Forward, Level::Global] {
        for sweep in [false, true] {
            assert!(clean(C1, level, sweep, &mut out).is_ok());
        }
    }
}

#[test]
fn refusals_write_nothing() {
    let text = std::str::from_utf8(C1).unwrap();
    let with = |rows: &str| text.replace("block,0,3,-,1\r\n", rows);
    let damaged = [
        (String::new(), Refusal::Rows, 1, None),
        (text.replace("slots,1", "slots,65"), Refusal::Limits, 2, None),
        (text.replace("value,0,0", "value,0,1"), Refusal::Names, 3, None),
        (text.replace("block,0,3,-,1", "block,0,3,-,0"), Refusal::NoEntry, 4, None),
        (with("block,0,3,-,1\r\nblock,1,0,-,1\r\n"), Refusal::Empty(6), 4, Some(6)),
        (with("block,0,3,-,1\r\nsucc,0,0\r\n"), Refusal::Disagree(5), 9, Some(5)),
        (with("block,0,3,-,1\r\nsucc,0,0\r\npred,0,0\r\n"), Refusal::Edges(5), 10, Some(5)),
        (with("block,0,3,-,1\r\nblock,1,1,1,1\r\n"), Refusal::NotSmaller(6), 11, Some(6)),
        (with("block,0,3,-,1\r\nblock,1,1,0,0\r\n"), Refusal::NotReached(6), 12, Some(6)),
        (text.replace("class,0,1,0", "class,0,0,0"), Refusal::Operands, 5, None),
        (text.replace("edit,1,move,s0,r0,0", "edit,1,espill,s0,r0,-"), Refusal::Edits, 6, None),
    ];
    for (sheet, refusal, number, row) in damaged {
        let mut out = [7; 100];
        assert_eq!(clean(sheet.as_bytes(), Level::Local, true, &mut out), Err(refusal), "{sheet}");
        assert_eq!(out, [7; 100]);
        assert_eq!((refusal.number(), refusal.row()), (number, row));
        let at = row.map_or(String::new(), |row| format!(" at row {row}"));
        assert!(refusal.to_string().starts_with(&format!("refusal {number}{at}: ")));
    }
}

#[test]
fn a_person_reads_it() {
    let values: String = (0..21).map(|v| format!("value,{v},-\r\n")).collect();
    let sheet = format!("slots,0\r\n{values}block,0,1,0,1\r\n");
    let refusal = clean(sheet.as_bytes(), Level::Local, true, &mut []).unwrap_err();
    assert_eq!(
        refusal.to_string(),
        "refusal 11 at row 23: sole predecessor or idom not smaller than its block"
    );
}

#[test]
fn empty_and_long_sheets() {
    let mut out = [7; 10];
    assert_eq!(clean(&[], Level::Global, true, &mut out), Err(Refusal::Rows));
    assert_eq!(clean(&vec![b'0'; 70_000], Level::Global, true, &mut out), Err(Refusal::Rows));
    assert_eq!(out, [7; 10]);
}
