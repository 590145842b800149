//! Links target/staticlib/libdoor.a of the repository, which `.ci/library` writes.

use std::env;
use std::path::Path;
use std::process::exit;

fn main() {
    let manifest = env::var("CARGO_MANIFEST_DIR").expect("cargo sets CARGO_MANIFEST_DIR");
    let folder = Path::new(&manifest).join("../../target/staticlib");
    let library = folder.join("libdoor.a");
    println!("cargo:rerun-if-changed={}", library.display());
    if !library.is_file() {
        eprintln!("{} is missing.", library.display());
        eprintln!("Make it with `.ci/library`, in the repository's root folder.");
        exit(1);
    }
    println!("cargo:rustc-link-search=native={}", folder.display());
    println!("cargo:rustc-link-lib=static=door");
}
