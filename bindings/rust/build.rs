//! Finds the proved library, `libchowderbell.a`, and has it linked.
//!
//! It is looked for in the folder that `CHOWDERBELL_LIB_DIR` names, and otherwise where `tools/build.sh chowderbell`
//! writes it: `target/staticlib` at the top of this repository.

use std::path::PathBuf;
use std::{env, process};

fn main() {
    println!("cargo:rerun-if-env-changed=CHOWDERBELL_LIB_DIR");
    let folder = match env::var_os("CHOWDERBELL_LIB_DIR") {
        Some(folder) => PathBuf::from(folder),
        None => {
            let here = PathBuf::from(env::var_os("CARGO_MANIFEST_DIR").expect("cargo names the crate's folder"));
            here.join("../../target/staticlib")
        }
    };
    let library = folder.join("libchowderbell.a");
    println!("cargo:rerun-if-changed={}", library.display());
    // documentation needs no library
    if env::var_os("DOCS_RS").is_some() {
        return;
    }
    if !library.is_file() {
        eprintln!("chowderbell: there is no {}", library.display());
        eprintln!("chowderbell: make it by `tools/build.sh chowderbell` at the top of the repository, or name its folder in CHOWDERBELL_LIB_DIR");
        process::exit(1);
    }
    println!("cargo:rustc-link-search=native={}", folder.display());
    println!("cargo:rustc-link-lib=static=chowderbell");
}
