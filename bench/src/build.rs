//! Links the archives of proved code that stand in the package's folder lib, and again when one of them changes.

use std::{env, fs, path::Path};

fn main() {
    let lib = Path::new(&env::var("CARGO_MANIFEST_DIR").unwrap()).join("lib");
    println!("cargo:rustc-link-search=native={}", lib.display());
    println!("cargo:rerun-if-changed={}", lib.display());
    for entry in fs::read_dir(&lib).unwrap() {
        let file = entry.unwrap().file_name().into_string().unwrap();
        if let Some(name) = file.strip_prefix("lib").and_then(|rest| rest.strip_suffix(".a")) {
            println!("cargo:rustc-link-lib=static={name}");
        }
    }
}
