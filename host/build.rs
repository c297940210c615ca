//! Links the archive that `make` writes.
use std::{env, path::PathBuf};

fn main() {
    let host = PathBuf::from(env::var("CARGO_MANIFEST_DIR").expect("cargo names the package's folder"));
    let archive = host.join("../target/staticlib");
    println!("cargo:rustc-link-search=native={}", archive.display());
    println!("cargo:rustc-link-lib=static=tailsprig");
    println!("cargo:rerun-if-changed={}", archive.join("libtailsprig.a").display());
}
