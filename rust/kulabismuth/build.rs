//! Links the static library that `tools/build` makes.

use std::env;
use std::path::{Path, PathBuf};

fn main() {
    let crate_dir = env::var("CARGO_MANIFEST_DIR").expect("cargo sets it");
    let directory = match env::var_os("KULABISMUTH_LIB_DIR") {
        Some(directory) => PathBuf::from(directory),
        None => Path::new(&crate_dir).join("../../target/staticlib"),
    };
    println!("cargo:rerun-if-env-changed=KULABISMUTH_LIB_DIR");
    println!(
        "cargo:rerun-if-changed={}/libkulabismuth.a",
        directory.display()
    );
    println!("cargo:rustc-link-search=native={}", directory.display());
    println!("cargo:rustc-link-lib=static=kulabismuth");
}
