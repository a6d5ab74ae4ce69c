//! Links the verified static library, built beforehand, from its crate's `out`.

use std::path::Path;

fn main() {
    let directory = Path::new(env!("CARGO_MANIFEST_DIR")).join("../crates/exports/out");
    let archive = directory.join("libexports.a");
    if !archive.exists() {
        println!("cargo:warning=the verified library is not built: {}", archive.display());
    }
    println!("cargo:rerun-if-changed={}", archive.display());
    println!("cargo:rustc-link-search=native={}", directory.display());
    println!("cargo:rustc-link-lib=static=exports");
}
