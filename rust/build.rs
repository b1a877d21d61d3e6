//! Finds the static library that `tools/build.sh exports` writes, and links it.

use std::path::PathBuf;
use std::{env, process};

fn main() {
    println!("cargo:rerun-if-env-changed=CERAHUPO_LIB");
    let folder = match env::var_os("CERAHUPO_LIB") {
        Some(folder) => PathBuf::from(folder),
        None => PathBuf::from(env::var_os("CARGO_MANIFEST_DIR").expect("cargo sets it")).join("../target/staticlib"),
    };
    let library = folder.join("libexports.a");
    println!("cargo:rerun-if-changed={}", library.display());
    if !library.is_file() {
        eprintln!("{} is missing: run `tools/build.sh exports` in the folder above,", library.display());
        eprintln!("or name the folder that has libexports.a in the variable CERAHUPO_LIB.");
        process::exit(1);
    }
    println!("cargo:rustc-link-search=native={}", folder.display());
    println!("cargo:rustc-link-lib=static=exports");
}
