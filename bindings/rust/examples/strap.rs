//! Cleans the sheet of a file, or of standard input, at a level: `cargo run --example strap -- LEVEL [FILE]`.
use drifthurdle::{clean, Level};
use std::io::{Read, Write};

fn main() -> Result<(), Box<dyn std::error::Error>> {
    let mut args = std::env::args().skip(1);
    let level = match args.next().as_deref() {
        Some("0") => Level::Off,
        Some("2") => Level::Forward,
        Some("3") => Level::Global,
        _ => Level::Local,
    };
    let mut sheet = Vec::new();
    match args.next() {
        Some(path) => sheet = std::fs::read(path)?,
        None => {
            std::io::stdin().read_to_end(&mut sheet)?;
        }
    }
    let mut out = vec![0; 1 << 17];
    let n = clean(&sheet, level, true, &mut out)?;
    std::io::stdout().write_all(&out[..n])?;
    Ok(())
}
