//! Tells the linker where `embedding/library` has written the static library.

use std::env;
use std::path::Path;

fn main() {
    println!("cargo:rerun-if-changed=build.rs");
    if env::var_os("CARGO_FEATURE_LIBRARY").is_none() {
        return;
    }
    let model = env::var("CARGO_MANIFEST_DIR").expect("cargo tells the folder of the model");
    let folder = Path::new(&model).join("../target/staticlib");
    println!("cargo:rustc-link-search=native={}", folder.display());
    println!("cargo:rerun-if-changed={}", folder.join("libinterface.a").display());
}
