//! Links libpickle.a, the proved code, which `./prove pickle_c` makes: from the folder QELEMVIR_LIB (a relative path counts from
//! this package), or else from the repository's target/staticlib.

use std::{env, path::PathBuf};

fn main() {
    println!("cargo:rerun-if-env-changed=QELEMVIR_LIB");
    let target = env::var("TARGET").unwrap();
    assert!(target.starts_with("x86_64-") && target.contains("linux"), "libpickle.a is code for x86-64 Linux, not for {target}");

    let folder = env::var_os("QELEMVIR_LIB").map_or(PathBuf::from("../../target/staticlib"), PathBuf::from);
    let archive = folder.join("libpickle.a");
    println!("cargo:rerun-if-changed={}", archive.display());
    let archive = archive.canonicalize().unwrap_or_else(|why| {
        panic!("{}: {why}; `./prove pickle_c` makes it, and QELEMVIR_LIB may name its folder", archive.display())
    });
    println!("cargo:rustc-link-search=native={}", archive.parent().unwrap().display());
    println!("cargo:rustc-link-lib=static=pickle");
}
