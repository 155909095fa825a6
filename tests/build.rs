//! Links another commit's library with the feature `other`; this tree's comes with its bindings. An older one does not count the
//! pixels changed: its header, beside it, says so, and `other_without_changed` is set.

use std::env;
use std::fs;

fn main() {
    println!("cargo:rustc-check-cfg=cfg(other_without_changed)");
    println!("cargo:rerun-if-env-changed=ZEVKHOLTAI_OTHER");
    if env::var_os("CARGO_FEATURE_OTHER").is_some() {
        link(
            &env::var("ZEVKHOLTAI_OTHER").expect("ZEVKHOLTAI_OTHER names the folder of libother.a"),
        );
    }
}

fn link(folder: &str) {
    println!("cargo:rerun-if-changed={folder}/libother.a");
    println!("cargo:rustc-link-search=native={folder}");
    println!("cargo:rustc-link-lib=static=other");
    let header = format!("{folder}/zevkholtai.h");
    println!("cargo:rerun-if-changed={header}");
    let text = fs::read_to_string(&header).unwrap_or_else(|why| panic!("{header}: {why}"));
    if !text.contains("uint32_t changed;") {
        println!("cargo:rustc-cfg=other_without_changed");
    }
}
