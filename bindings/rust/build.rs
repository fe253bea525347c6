//! Links the proved archive: the one that `DRIFTHURDLE_LIB` names, absolute or from the project's root, or
//! target/staticlib/libdrifthurdle.a.
use std::path::PathBuf;

fn main() {
    let root = PathBuf::from(std::env::var("CARGO_MANIFEST_DIR").unwrap()).join("../..");
    let named = std::env::var_os("DRIFTHURDLE_LIB").filter(|name| !name.is_empty());
    let archive = root.join(named.unwrap_or_else(|| "target/staticlib/libdrifthurdle.a".into()));
    println!("cargo::rerun-if-env-changed=DRIFTHURDLE_LIB");
    println!("cargo::rerun-if-changed={}", archive.display());
    assert!(
        archive.exists(),
        "{} is missing: run `bindings/archive` in the project's root, or name the archive by DRIFTHURDLE_LIB",
        archive.display()
    );
    let (dir, file) = archive.parent().zip(archive.file_name()).expect("an archive stands in a folder");
    println!("cargo::rustc-link-search=native={}", dir.display());
    println!("cargo::rustc-link-lib=static:+verbatim={}", file.to_string_lossy());
}
