//! Finds the static library: in the directory that `QORSHUDAN_LIB_DIR` names, else where `make` in
//! the repository leaves it.

use std::env;
use std::path::{Path, PathBuf};
use std::process::exit;

fn main() {
    println!("cargo:rerun-if-changed=build.rs");
    println!("cargo:rerun-if-env-changed=QORSHUDAN_LIB_DIR");
    let package = env::var_os("CARGO_MANIFEST_DIR").expect("cargo names the package's directory");
    let directory = env::var_os("QORSHUDAN_LIB_DIR").map_or_else(
        || Path::new(&package).join("../../target/staticlib"),
        PathBuf::from,
    );
    let library = directory.join("libqorshudan.a");
    println!("cargo:rerun-if-changed={}", library.display());
    if !library.is_file() {
        eprintln!(
            "There is no {}: `make` in the repository makes it. If it lies elsewhere, set \
             QORSHUDAN_LIB_DIR to its directory.",
            library.display()
        );
        exit(1);
    }
    println!("cargo:rustc-link-search=native={}", directory.display());
    println!("cargo:rustc-link-lib=static=qorshudan");
}
