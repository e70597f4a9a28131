//! Links the proved library, which `host/build` puts into the repository's target folder.

use std::path::Path;

fn main() {
    let root = Path::new(env!("CARGO_MANIFEST_DIR")).join("../..");
    let folder = root.join("target/staticlib");
    let library = folder.join("libhaplotypes.a");
    assert!(library.is_file(), "{} is missing: run `host/build library` in the repository first", library.display());
    println!("cargo:rerun-if-changed={}", library.display());
    println!("cargo:rustc-link-search=native={}", folder.display());
    println!("cargo:rustc-link-lib=static=haplotypes");
}
