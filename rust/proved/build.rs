//! Links the boundary crate's static library, which `tools/native boundary` writes.
use std::path::PathBuf;

fn main() {
    let root = PathBuf::from(std::env::var("CARGO_MANIFEST_DIR").unwrap()).join("../..");
    let library = root.join("target/staticlib");
    println!("cargo:rustc-link-search=native={}", library.display());
    println!("cargo:rustc-link-lib=static=boundary");
    println!(
        "cargo:rerun-if-changed={}",
        library.join("libboundary.a").display()
    );
}
