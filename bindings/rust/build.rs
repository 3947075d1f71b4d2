//! Links the static library: that of the repository, or libcfb_c.a in the folder that CFB_LIB_DIR names.

use std::env;
use std::path::{Path, PathBuf};

fn main() {
    let here = env::var("CARGO_MANIFEST_DIR").expect("set by cargo");
    let folder = match env::var_os("CFB_LIB_DIR") {
        Some(named) => PathBuf::from(named),
        None => Path::new(&here).join("../../crates/cfb_c/out"),
    };
    let library = folder.join("libcfb_c.a");
    if !library.is_file() {
        println!("cargo:warning={} is not there: `tools/static` in the repository builds it", library.display());
    }
    println!("cargo:rustc-link-search=native={}", folder.display());
    println!("cargo:rustc-link-lib=static=cfb_c");
    println!("cargo:rerun-if-changed={}", library.display());
    println!("cargo:rerun-if-env-changed=CFB_LIB_DIR");
}
