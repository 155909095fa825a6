//! Links libzevkholtai.a, found in the folder that ZEVKHOLTAI_LIB names.

use std::env;

fn main() {
    println!("cargo:rerun-if-env-changed=ZEVKHOLTAI_LIB");
    let folder = env::var("ZEVKHOLTAI_LIB")
        .unwrap_or_else(|_| panic!("ZEVKHOLTAI_LIB must name the folder of libzevkholtai.a"));
    println!("cargo:rerun-if-changed={folder}/libzevkholtai.a");
    println!("cargo:rustc-link-search=native={folder}");
    println!("cargo:rustc-link-lib=static=zevkholtai");
}
