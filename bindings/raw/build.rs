//! Links libhailgully.a from HAILGULLY_LIB_DIR, or else from target/hailgully at the repository's root, which ./build fills.

use std::path::PathBuf;

fn main() {
    let here = PathBuf::from(std::env::var_os("CARGO_MANIFEST_DIR").expect("cargo sets it"));
    let root = here.ancestors().find(|folder| folder.join("crates.txt").exists()).unwrap_or(&here);
    let given = std::env::var_os("HAILGULLY_LIB_DIR");
    let folder = given.map_or_else(|| root.join("target/hailgully"), |given| here.join(given));
    let library = folder.join("libhailgully.a");
    println!("cargo::rerun-if-env-changed=HAILGULLY_LIB_DIR");
    println!("cargo::rerun-if-changed={}", library.display());
    if !library.exists() {
        let folder = folder.display();
        println!(
            "cargo::error=no libhailgully.a in {folder}: ./build at the repository's root makes it, HAILGULLY_LIB_DIR names another folder"
        );
    }
    println!("cargo::rustc-link-search=native={}", folder.display());
    println!("cargo::rustc-link-lib=static=hailgully");
}
