//! Tells the linker where the port's archive lies, if it is to be linked.

fn main() {
    println!("cargo::rerun-if-env-changed=NJALLAVET_ARCHIVE");
    if std::env::var_os("CARGO_FEATURE_ARCHIVE").is_none() {
        return;
    }
    let archive = std::env::var("NJALLAVET_ARCHIVE")
        .expect("NJALLAVET_ARCHIVE names the folder that holds libexports.a");
    println!("cargo::rerun-if-changed={archive}/libexports.a");
    println!("cargo::rustc-link-search=native={archive}");
    println!("cargo::rustc-link-lib=static=exports");
}
