//! With the feature c-engine: links the library that PACK_ENGINE_LIB names, from the directory PACK_ENGINE_DIR.

use std::env;

fn main() {
    println!("cargo:rerun-if-env-changed=PACK_ENGINE_DIR");
    println!("cargo:rerun-if-env-changed=PACK_ENGINE_LIB");
    if env::var_os("CARGO_FEATURE_C_ENGINE").is_none() {
        return;
    }
    let directory = env::var("PACK_ENGINE_DIR").expect("PACK_ENGINE_DIR names a directory");
    let library =
        env::var("PACK_ENGINE_LIB").expect("PACK_ENGINE_LIB is dylib=NAME or static=NAME");
    // A library built anew must be linked anew.
    println!("cargo:rerun-if-changed={directory}");
    println!("cargo:rustc-link-search=native={directory}");
    println!("cargo:rustc-link-lib={library}");
}
