//! Links the proved archive: `NJALLAVET_ARCHIVE` names its folder, else the repository's own `crates/exports/out`.
use std::{env, path::PathBuf};

fn main() {
    println!("cargo:rerun-if-env-changed=NJALLAVET_ARCHIVE");
    let folder = env::var_os("NJALLAVET_ARCHIVE").map_or_else(
        || PathBuf::from(env::var_os("CARGO_MANIFEST_DIR").unwrap()).join("../../crates/exports/out"),
        PathBuf::from,
    );
    println!(
        "cargo:rerun-if-changed={}",
        folder.join("libexports.a").display()
    );
    println!("cargo:rustc-link-search=native={}", folder.display());
    println!("cargo:rustc-link-lib=static=exports");
}
