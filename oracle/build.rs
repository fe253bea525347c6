//! Links the static library of the call, if it is there. Makes no library itself.

use std::env;
use std::path::Path;

const VARIABLE: &str = "DRIFTHURDLE_LIB";
const DEFAULT: &str = "target/staticlib/libdrifthurdle.a";

fn main() {
    println!("cargo::rustc-check-cfg=cfg(linked)");
    println!("cargo::rerun-if-changed=build.rs");
    println!("cargo::rerun-if-env-changed={VARIABLE}");
    let project = Path::new(&env::var("CARGO_MANIFEST_DIR").unwrap()).join("..");
    let named = env::var(VARIABLE).ok().filter(|v| !v.is_empty());
    let archive = project.join(named.as_deref().unwrap_or(DEFAULT));
    println!("cargo::rerun-if-changed={}", archive.display());
    if archive.is_file() {
        println!("cargo::rustc-cfg=linked");
        println!("cargo::rustc-link-arg-bins={}", archive.display());
    } else if named.is_some() {
        println!("cargo::error={VARIABLE}: no file {}", archive.display());
    }
}
