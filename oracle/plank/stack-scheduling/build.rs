//! Refuses to build when an original file is not, byte for byte, the one whose
//! SHA-256 sum is kept beside it.

use std::{fs, path::Path};

#[path = "sha256.rs"]
mod sha256;

fn main() {
    let folder = Path::new(env!("CARGO_MANIFEST_DIR")).join("..");
    let sums = folder.join("SHA256SUMS");
    println!("cargo::rerun-if-changed={}", sums.display());
    let list = fs::read_to_string(&sums).expect("plank/SHA256SUMS cannot be read");
    let mut files = 0;
    for line in list.lines() {
        let (expected, name) = line.split_once("  ").expect("a line is a sum, two spaces, a name");
        let path = folder.join(name);
        println!("cargo::rerun-if-changed={}", path.display());
        let bytes = fs::read(&path).unwrap_or_else(|error| panic!("plank/{name}: {error}"));
        let found = sha256::hex(&bytes);
        assert!(found == expected, "plank/{name} is not the original: its sum is {found}");
        files += 1;
    }
    assert!(files == 4, "plank/SHA256SUMS names {files} files, not four");
}
