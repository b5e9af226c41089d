//! Where the proved library lies. Only the feature `library` links it, so that the rest
//! builds where it has not been written.

use std::env;

fn main() {
    println!("cargo:rerun-if-changed=build.rs");
    println!("cargo:rerun-if-env-changed=TORCHVALLEY_LIBRARY");
    if env::var_os("CARGO_FEATURE_LIBRARY").is_some() {
        let beside = concat!(env!("CARGO_MANIFEST_DIR"), "/../target/staticlib");
        let folder = env::var("TORCHVALLEY_LIBRARY").unwrap_or(beside.into());
        println!("cargo:rustc-link-search=native={folder}");
        println!("cargo:rerun-if-changed={folder}/libtorchvalley.a");
    }
}
