//! Tells the linker where the static library is: where this checkout's build leaves it, or in the
//! folder that CEC_ARCHIVE_DIR names, which a warning then says. A relative folder counts from this
//! crate's manifest, wherever cargo's own target folder is.

use std::env;
use std::path::{Path, PathBuf};

const DEFAULT_DIR: &str = "../../target/staticlib";

fn archive_dir() -> PathBuf {
    let manifest_dir =
        env::var_os("CARGO_MANIFEST_DIR").expect("cargo names the manifest's folder");
    let named = env::var_os("CEC_ARCHIVE_DIR").filter(|dir| !dir.is_empty());
    let dir = Path::new(&manifest_dir).join(named.as_deref().unwrap_or(DEFAULT_DIR.as_ref()));
    if named.is_some() {
        // An inherited variable must not go unseen: the tests then judge another library.
        println!(
            "cargo:warning=the library is taken from {}, as CEC_ARCHIVE_DIR says",
            dir.display()
        );
    }
    dir
}

fn main() {
    let dir = archive_dir();
    let archive = dir.join("libcec_abi.a");
    println!("cargo:rerun-if-env-changed=CEC_ARCHIVE_DIR");
    println!("cargo:rerun-if-changed=build.rs");
    println!("cargo:rerun-if-changed={}", archive.display());
    if !archive.is_file() {
        // Only a warning: the crate can be checked without the library, though not linked.
        println!(
            "cargo:warning={} is missing: build it first by `tools/build cec_abi` in the repository's folder, or name its folder in CEC_ARCHIVE_DIR",
            archive.display()
        );
    }
    println!("cargo:rustc-link-search=native={}", dir.display());
    println!("cargo:rustc-link-lib=static=cec_abi");
}
