//! Names the proved static library, which `bin/library` makes.

use std::path::Path;

fn main() {
    let here = std::env::var("CARGO_MANIFEST_DIR").expect("cargo names the folder of the manifest");
    let folder = Path::new(&here).join("../../target/staticlib");
    let archive = folder.join("libtirunoiwa.a");
    println!("cargo:rerun-if-changed={}", archive.display());
    if !archive.exists() {
        panic!(
            "there is no libtirunoiwa.a yet: run `bin/library` at the project's root"
        );
    }
    println!("cargo:rustc-link-search=native={}", folder.display());
    println!("cargo:rustc-link-lib=static=tirunoiwa");
}
