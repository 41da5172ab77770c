// Links the static library that `bash examples/library` writes.
use std::path::Path;

fn main() {
    let root = std::env::var("CARGO_MANIFEST_DIR").expect("cargo sets it");
    let folder = Path::new(&root).join("../../target/staticlib");
    println!("cargo:rustc-link-search=native={}", folder.display());
    println!("cargo:rustc-link-lib=static=placer");
    println!(
        "cargo:rerun-if-changed={}",
        folder.join("libplacer.a").display()
    );
}
