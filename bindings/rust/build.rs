//! Finds the archive `libuca.a`, and has it linked.
//!
//! It is in the folder that the environment's `UCA_LIB_DIR` names, or in `lib/TARGET` of a packaged crate, or where
//! the Makefile of the repository makes it.
use std::env;
use std::path::{Path, PathBuf};
use std::process::exit;

const MADE_FOR: &str = "x86_64-unknown-linux-gnu";

/// The folders that may have the archive, the first one first.
fn folders(target: &str) -> Vec<PathBuf> {
    if let Some(named) = env::var_os("UCA_LIB_DIR") {
        return vec![PathBuf::from(named)];
    }
    let crate_folder = PathBuf::from(env::var_os("CARGO_MANIFEST_DIR").unwrap_or_default());
    let mut found = vec![crate_folder.join("lib").join(target)];
    if target == MADE_FOR {
        found.push(crate_folder.join("../c/out"));
    }
    found
}

fn link(folder: &Path) {
    println!("cargo:rerun-if-changed={}", folder.join("libuca.a").display());
    println!("cargo:rustc-link-search=native={}", folder.display());
    println!("cargo:rustc-link-lib=static=uca");
}

fn main() {
    println!("cargo:rerun-if-env-changed=UCA_LIB_DIR");
    println!("cargo:rerun-if-changed=build.rs");
    let target = env::var("TARGET").unwrap_or_default();
    let tried = folders(&target);
    match tried.iter().find(|it| it.join("libuca.a").is_file()) {
        Some(folder) => link(folder),
        None => {
            let names: Vec<_> = tried.iter().map(|it| it.display().to_string()).collect();
            eprintln!("There is no libuca.a for {target} in {}.", names.join(" or "));
            eprintln!(
                "The library is made for {MADE_FOR}. Name the folder that has it in the environment's UCA_LIB_DIR."
            );
            exit(1);
        }
    }
}
