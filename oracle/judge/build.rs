//! Writes, into OUT_DIR, the module lists that bring the original files in by
//! absolute path, and the part of `move_resolver.rs` that can be compiled.
//! Reads the originals only; nothing of them is kept outside OUT_DIR.

use std::env;
use std::fs;
use std::path::{Path, PathBuf};
use std::process::exit;

const VARIABLE: &str = "REGALLOC3_SRC";
const DEFAULT: &str = "../shared/docs/src";

const ROOT: &[&str] = &["allocation_unit", "function", "output", "reginfo"];
const ENTITY: &[&str] = &["packed_option", "set", "small_set", "sparse"];
const INTERNAL: &[&str] = &[
    "allocations",
    "dead_spill_elimination",
    "hints",
    "live_range",
    "move_optimizer",
    "spill_allocator",
];

fn main() {
    println!("cargo::rerun-if-changed=build.rs");
    println!("cargo::rerun-if-env-changed={VARIABLE}");
    let src = originals();
    let out = PathBuf::from(env::var("OUT_DIR").unwrap());
    write_modules(&out.join("originals_root.rs"), &src, ROOT);
    write_modules(&out.join("originals_entity.rs"), &src.join("entity"), ENTITY);
    write_modules(&out.join("originals_internal.rs"), &src.join("internal"), INTERNAL);
    write_move_resolver(&out.join("move_resolver_part.rs"), &src.join("internal/move_resolver.rs"));
}

fn fail(why: &str) -> ! {
    eprintln!("error: {why}");
    eprintln!(
        "Set {VARIABLE} to the folder of regalloc3 that holds src/internal/move_optimizer.rs \
         (absolute, or relative to the project's root). Without it {DEFAULT} is taken."
    );
    exit(1)
}

/// The folder `src` of the originals.
fn originals() -> PathBuf {
    let project = Path::new(&env::var("CARGO_MANIFEST_DIR").unwrap()).join("../..");
    let named = env::var(VARIABLE).ok().filter(|v| !v.is_empty());
    let folder = project.join(named.as_deref().unwrap_or(DEFAULT));
    match folder.join("src").canonicalize() {
        Ok(src) if src.join("internal/move_optimizer.rs").is_file() => src,
        _ => fail(&format!("no src/internal/move_optimizer.rs in {}", folder.display())),
    }
}

fn watched(path: &Path) -> &Path {
    if !path.is_file() {
        fail(&format!("{} is missing", path.display()));
    }
    println!("cargo::rerun-if-changed={}", path.display());
    path
}

fn write_modules(to: &Path, folder: &Path, names: &[&str]) {
    let mut text = String::new();
    for name in names {
        let file = folder.join(format!("{name}.rs"));
        text += &format!("#[path = {:?}]\npub mod {name};\n", watched(&file));
    }
    fs::write(to, text).unwrap();
}

/// `Edit` and the accessors of `MoveResolver`, unchanged; the rest of that file
/// leans on files that are not there.
fn write_move_resolver(to: &Path, from: &Path) {
    let text = fs::read_to_string(watched(from)).unwrap();
    let edit = between(
        &text,
        "/// An edit represents either a move between",
        "/// Information needed to emit a dest half-move",
    );
    let accessors = between(
        &text,
        "    /// Returns the list of edits starting from the given instruction.",
        "// Track whether the current instruction has an external live-in value",
    );
    fs::write(to, format!("{edit}\nimpl MoveResolver {{\n{accessors}")).unwrap();
}

fn between<'a>(text: &'a str, from: &str, to: &str) -> &'a str {
    let part = text.find(from).and_then(|a| text[a..].find(to).map(|n| &text[a..a + n]));
    part.unwrap_or_else(|| {
        fail(&format!("move_resolver.rs lacks the text from {from:?} to {to:?}"))
    })
}
