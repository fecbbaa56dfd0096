//! Links an older library of the crate `firmware`, and with the feature `probe` one of that crate too. They lie in OLD_LIB_DIR, and the names of
//! their calls begin with `old_`.

use std::env;

fn main() {
    println!("cargo:rustc-check-cfg=cfg(old)");
    println!("cargo:rustc-cfg=old");
    println!("cargo:rerun-if-changed=build.rs");
    println!("cargo:rerun-if-env-changed=OLD_LIB_DIR");
    let dir = env::var("OLD_LIB_DIR").expect("OLD_LIB_DIR");
    println!("cargo:rustc-link-search=native={dir}");
    let mut libraries = vec!["firmware"];
    if env::var_os("CARGO_FEATURE_PROBE").is_some() {
        libraries.push("probe");
    }
    for library in libraries {
        println!("cargo:rerun-if-changed={dir}/libold_{library}.a");
        println!("cargo:rustc-link-lib=static=old_{library}");
    }
}
