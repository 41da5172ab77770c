//! Links libplacer.a, which `bash examples/library` writes to target/staticlib of the repository.

use std::path::PathBuf;

fn main() {
    let folder: PathBuf = [env!("CARGO_MANIFEST_DIR"), "..", "..", "..", "target", "staticlib"].iter().collect();
    println!("cargo:rustc-link-search=native={}", folder.display());
    println!("cargo:rustc-link-lib=static=placer");
    println!("cargo:rerun-if-changed={}", folder.join("libplacer.a").display());
}
