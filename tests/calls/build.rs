//! Links the libraries of the crates `firmware_c` and `probe`, libfirmware.a and libprobe.a in PLANNER_LIB_DIR.

use std::env;

fn main() {
    println!("cargo:rustc-check-cfg=cfg(old)");
    println!("cargo:rerun-if-changed=build.rs");
    println!("cargo:rerun-if-env-changed=PLANNER_LIB_DIR");
    match env::var("PLANNER_LIB_DIR") {
        Ok(dir) => {
            println!("cargo:rustc-link-search=native={dir}");
            println!("cargo:rerun-if-changed={dir}/libfirmware.a");
            println!("cargo:rerun-if-changed={dir}/libprobe.a");
        }
        Err(_) => println!("cargo:warning=PLANNER_LIB_DIR is not set"),
    }
    println!("cargo:rustc-link-lib=static=firmware");
    println!("cargo:rustc-link-lib=static=probe");
}
