//! Links the archive that tests/gate/library makes.
use std::env;
use std::path::Path;

fn main() {
    let here = env::var("CARGO_MANIFEST_DIR").expect("cargo sets it");
    let archives = Path::new(&here).join("../../crates/fortuna_c/out");
    let archive = archives.join("libfortuna_c.a");
    assert!(
        archive.exists(),
        "{} is missing: tests/gate/library makes it",
        archive.display()
    );
    println!("cargo:rustc-link-search=native={}", archives.display());
    println!("cargo:rustc-link-lib=static=fortuna_c");
    println!("cargo:rerun-if-changed={}", archive.display());
}
