//! Links the static library that `embedding/library` writes.
use std::env;

fn main() {
    println!("cargo:rerun-if-env-changed=GIVRETHANS_LIB");
    let folder =
        env::var("GIVRETHANS_LIB").expect("GIVRETHANS_LIB names the folder of libinterface.a");
    println!("cargo:rerun-if-changed={folder}/libinterface.a");
    println!("cargo:rustc-link-search=native={folder}");
    println!("cargo:rustc-link-lib=static=interface");
}
