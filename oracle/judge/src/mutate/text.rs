//! Damage by text: single fields, rows and bytes.

use crate::requests;
use crate::rng::Rng;

fn split(bytes: &[u8]) -> Vec<Vec<u8>> {
    let mut rows = vec![];
    let mut rest = bytes;
    while let Some(at) = rest.windows(2).position(|w| w == b"\r\n") {
        rows.push(rest[..at].to_vec());
        rest = &rest[at + 2..];
    }
    if !rest.is_empty() {
        rows.push(rest.to_vec());
    }
    rows
}

fn join(rows: &[Vec<u8>]) -> Vec<u8> {
    let mut out = vec![];
    for r in rows {
        out.extend_from_slice(r);
        out.extend_from_slice(b"\r\n");
    }
    out
}

pub(super) fn field(rng: &mut Rng, bytes: &mut Vec<u8>) {
    let mut rows = split(bytes);
    if rows.is_empty() {
        return;
    }
    let at = rng.below(rows.len());
    let mut fields: Vec<Vec<u8>> = rows[at].split(|&c| c == b',').map(|f| f.to_vec()).collect();
    let k = if fields.len() > 1 && rng.pct(92) { rng.range(1, fields.len() - 1) } else { 0 };
    let text = String::from_utf8_lossy(&fields[k]).to_string();
    let (head, num) = match text.find(|c: char| c.is_ascii_digit()) {
        Some(i) => (text[..i].to_string(), text[i..].parse::<i64>().ok()),
        None => (text.clone(), None),
    };
    let words = [
        "", "-", "--", "0", "00", "01", "1", "2", "63", "64", "127", "128", "99999", "100000",
        "000001", "r0", "s0", "r1", "s1", "c0", "f0", "u0", "u1", "u127", "u128", "r", "s", "x",
        "R0", "S0", " 1", "1 ", "+1", "-1", "r-1", "r00", "r01", "s00", "c01", "f00", "u00",
        "r100000", "s99999", "def", "use", "early", "defg", "useg", "earlyg", "fixed", "move",
        "remat", "espill", "ereload", "none", "slots", "reg", "class", "group", "value", "vgroup",
        "block", "succ", "pred", "param", "op", "clob", "edit", "\"0\"", "0x1", "1.0", "\t1",
    ];
    match rng.below(10) {
        0..=4 if num.is_some() => {
            let n = num.unwrap();
            let n = match rng.below(6) {
                0 | 1 => n + 1,
                2 | 3 => (n - 1).max(0),
                4 => rng.below(130) as i64,
                _ => n + 10,
            };
            fields[k] = format!("{head}{n}").into_bytes();
        }
        5 => {
            fields.remove(k);
        }
        6 => {
            let f = fields[k].clone();
            fields.insert(k, f);
        }
        7 => {
            let j = rng.below(fields.len());
            fields.swap(k, j);
        }
        _ if requests::recipes() && rng.pct(10) => {
            fields[k] = rng.pick(&["irem", "iremat", "rin"]).as_bytes().to_vec()
        }
        _ => fields[k] = rng.pick(&words).as_bytes().to_vec(),
    }
    rows[at] = fields.join(&b","[..]);
    *bytes = join(&rows);
}

pub(super) fn rows(rng: &mut Rng, bytes: &mut Vec<u8>) {
    let mut rows = split(bytes);
    if rows.is_empty() {
        return;
    }
    let k = rng.below(rows.len());
    match rng.below(9) {
        0 => {
            rows.remove(k);
        }
        1 => {
            let r = rows[k].clone();
            rows.insert(k, r);
        }
        8 => {
            let r = rows[0].clone();
            rows.insert(rng.below(2), r);
        }
        2 => {
            let j = rng.below(rows.len());
            rows.swap(k, j);
        }
        3 if k + 1 < rows.len() => rows.swap(k, k + 1),
        4 => {
            let r = rows.remove(k);
            let j = rng.range(0, rows.len());
            rows.insert(j, r);
        }
        5 => rows.truncate(k),
        6 => rows.insert(k, vec![]),
        _ => {
            // The last row of a kind goes: numbers stay without gaps.
            let kind: Vec<u8> = rows[k].split(|&c| c == b',').next().unwrap().to_vec();
            let last = rows
                .iter()
                .rposition(|r| r.split(|&c| c == b',').next().unwrap() == &kind[..])
                .unwrap();
            rows.remove(last);
        }
    }
    *bytes = join(&rows);
}

pub(super) fn byte(rng: &mut Rng, bytes: &mut Vec<u8>) {
    if bytes.is_empty() {
        return;
    }
    let k = rng.below(bytes.len());
    match rng.below(9) {
        0 => bytes[k] ^= 1 << rng.below(8),
        1 => bytes[k] = rng.below(256) as u8,
        2 => bytes[k] = rng.pick(b"0123456789,-rscfu\r\n \""),
        3 => {
            bytes.remove(k);
        }
        4 => bytes.insert(k, rng.pick(b"0123456789,-rscfu\r\n \"")),
        5 => bytes.truncate(k),
        6 => {
            // The last line end, in part or whole.
            let n = bytes.len();
            bytes.truncate(n - rng.range(1, 2.min(n)));
        }
        7 => {
            let more: &[u8] = rng.pick(&[&b"\r\n"[..], b"\n", b"\r", b"\0", b" ", b"edit"]);
            bytes.extend_from_slice(more);
        }
        _ => {
            // A line end as Unix has it.
            let ends: Vec<usize> = (0..bytes.len()).filter(|&i| bytes[i] == b'\r').collect();
            if !ends.is_empty() {
                bytes.remove(rng.pick(&ends));
            }
        }
    }
}
