//! Finds `libhalofret.a`, which `rt lib` in crates/halofret writes.

use std::path::PathBuf;
use std::{env, process};

fn main() {
    let directory = match env::var_os("HALOFRET_LIB") {
        Some(directory) => PathBuf::from(directory),
        None => {
            let package = env::var_os("CARGO_MANIFEST_DIR").expect("cargo sets it");
            PathBuf::from(package).join("../../crates/halofret/out")
        }
    };
    let library = directory.join("libhalofret.a");
    println!("cargo:rerun-if-env-changed=HALOFRET_LIB");
    println!("cargo:rerun-if-changed={}", library.display());
    if !library.is_file() {
        eprintln!(
            "There is no {}: run `rt lib` in crates/halofret, \
             or name the library's directory in HALOFRET_LIB.",
            library.display()
        );
        process::exit(1);
    }
    println!("cargo:rustc-link-search=native={}", directory.display());
    println!("cargo:rustc-link-lib=static=halofret");
}
