//! Links libgaldnyrr.a, which `tools/library` writes to target/staticlib of the project; `GALDNYRR_LIB_DIR` names another folder.

use std::path::PathBuf;

fn main() {
    let here = PathBuf::from(std::env::var("CARGO_MANIFEST_DIR").unwrap());
    let dir = match std::env::var("GALDNYRR_LIB_DIR") {
        Ok(dir) => PathBuf::from(dir),
        Err(_) => here.join("../target/staticlib"),
    };
    let library = dir.join("libgaldnyrr.a");
    println!("cargo:rerun-if-env-changed=GALDNYRR_LIB_DIR");
    println!("cargo:rerun-if-changed={}", library.display());
    if !library.is_file() {
        panic!("no {}: run `tools/library` at the project's root", library.display());
    }
    println!("cargo:rustc-link-search=native={}", dir.display());
    println!("cargo:rustc-link-lib=static=galdnyrr");
}
