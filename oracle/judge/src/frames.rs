//! The stream formats.
//!
//! Cases:   `case LEVEL SWEEP CAP LEN\n`, LEN sheet bytes, `\n`.
//! Answers: `ans RET LEN\n`, LEN answer bytes, `\n`; RET is what the call returns
//! (LEN, or minus the refusal, then LEN is 0). A run that panics gives
//! `panic 0 LEN\n`, the message, `\n`.

#[derive(Clone, PartialEq, Eq, Debug)]
pub struct Case {
    pub level: u32,
    pub sweep: u32,
    pub cap: usize,
    pub sheet: Vec<u8>,
}

#[derive(Clone, PartialEq, Eq, Debug)]
pub enum Answer {
    Ret(i64, Vec<u8>),
    Panic(String),
}

/// A sheet from rows joined by ` / `.
pub fn from_rows(rows: &str) -> Vec<u8> {
    rows.split(" / ").map(|r| format!("{r}\r\n")).collect::<String>().into_bytes()
}

/// Rows joined by ` / `, for a person.
pub fn to_rows(bytes: &[u8]) -> String {
    let text = String::from_utf8_lossy(bytes).replace("\r\n", " / ");
    text.strip_suffix(" / ").unwrap_or(&text).to_string()
}

fn put(out: &mut Vec<u8>, head: String, body: &[u8]) {
    out.extend_from_slice(format!("{head} {}\n", body.len()).as_bytes());
    out.extend_from_slice(body);
    out.push(b'\n');
}

pub fn put_case(out: &mut Vec<u8>, c: &Case) {
    put(out, format!("case {} {} {}", c.level, c.sweep, c.cap), &c.sheet);
}

pub fn put_answer(out: &mut Vec<u8>, a: &Answer) {
    match a {
        Answer::Ret(n, b) => put(out, format!("ans {n}"), b),
        Answer::Panic(m) => put(out, "panic 0".into(), m.as_bytes()),
    }
}

/// The first case of a stream, and what follows.
fn case(bytes: &[u8]) -> Option<(Case, &[u8])> {
    let end = bytes.iter().position(|&c| c == b'\n')?;
    let head = std::str::from_utf8(&bytes[..end]).ok()?;
    let ["case", level, sweep, cap, len] = head.split(' ').collect::<Vec<_>>()[..] else {
        return None;
    };
    let rest = &bytes[end + 1..];
    let len: usize = len.parse().ok()?;
    if *rest.get(len)? != b'\n' {
        return None;
    }
    let sheet = rest[..len].to_vec();
    let (level, sweep, cap) = (level.parse().ok()?, sweep.parse().ok()?, cap.parse().ok()?);
    Some((Case { level, sweep, cap, sheet }, &rest[len + 1..]))
}

pub fn cases(bytes: &[u8]) -> Result<Vec<Case>, String> {
    let mut all = vec![];
    let mut rest = bytes;
    while !rest.is_empty() {
        let (c, after) = case(rest).ok_or_else(|| format!("case {} is broken", all.len()))?;
        all.push(c);
        rest = after;
    }
    Ok(all)
}
