//! The change requests of document 02 that the judge knows ahead of the library. They
//! are off unless the variable REQUESTS names them, as numbers joined by commas.

use std::sync::OnceLock;

const VARIABLE: &str = "REQUESTS";
const KNOWN: [&str; 1] = ["2"];

fn named() -> String {
    std::env::var(VARIABLE).unwrap_or_default()
}

/// Why the variable cannot be taken, if it cannot.
pub fn refused() -> Option<String> {
    let all = named();
    let other = all.split(',').find(|n| !n.is_empty() && !KNOWN.contains(n))?;
    Some(format!("{VARIABLE}: no request {other:?} here; known: {}", KNOWN.join(", ")))
}

/// Request 2, indirect rematerialisation: the rows `iremat` and `rin`, the edit `irem`,
/// refusal 13 and the tenth count.
pub fn recipes() -> bool {
    static ON: OnceLock<bool> = OnceLock::new();
    *ON.get_or_init(|| named().split(',').any(|n| n == "2"))
}
