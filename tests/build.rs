//! Where the static library lies, and that a new one is to be linked anew.

use std::path::{Path, PathBuf};

fn main() {
    let here = std::env::var("CARGO_MANIFEST_DIR").expect("set by cargo");
    // Another folder, by its whole path.
    let folder = std::env::var_os("CFB_LIB_DIR").map(PathBuf::from);
    let folder = folder.unwrap_or_else(|| Path::new(&here).join("../crates/cfb_c/out"));
    println!("cargo::rustc-link-search=native={}", folder.display());
    println!("cargo::rerun-if-changed={}", folder.join("libcfb_c.a").display());
    println!("cargo::rerun-if-env-changed=CFB_LIB_DIR");
}
