//! With the feature `proved`, the linker looks for static libraries where `tools/prove library`
//! writes them.

use std::env;
use std::path::PathBuf;

fn main() {
    println!("cargo:rerun-if-changed=build.rs");
    if env::var_os("CARGO_FEATURE_PROVED").is_none() {
        return;
    }
    let package = PathBuf::from(env::var_os("CARGO_MANIFEST_DIR").expect("set by cargo"));
    let libraries = package.join("../target/staticlib");
    println!("cargo:rustc-link-search=native={}", libraries.display());
    println!("cargo:rerun-if-changed={}", libraries.display());
}
