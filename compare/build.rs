//! Links the static library `pipeteasel`. PIPETEASEL_LIB names its directory,
//! counted from the repository's root, which is also the default.

use std::path::{Path, PathBuf};

const VARIABLE: &str = "PIPETEASEL_LIB";

fn main() {
    let root = Path::new(env!("CARGO_MANIFEST_DIR")).join("..");
    let directory: PathBuf = match std::env::var_os(VARIABLE) {
        Some(named) => root.join(named),
        None => root,
    };
    println!("cargo::rerun-if-env-changed={VARIABLE}");
    println!(
        "cargo::rerun-if-changed={}",
        directory.join("libpipeteasel.a").display()
    );
    println!("cargo::rustc-link-search=native={}", directory.display());
    println!("cargo::rustc-link-lib=static=pipeteasel");
}
