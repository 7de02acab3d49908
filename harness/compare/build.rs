//! Tells the linker where `libcalls.a` lies, where a program that calls it is wanted.

use std::env;

fn main() {
    println!("cargo:rerun-if-env-changed=RIDDLEPOPPY_STATICLIB");
    if env::var_os("CARGO_FEATURE_STATICLIB").is_none() {
        return;
    }
    let folder = env::var("RIDDLEPOPPY_STATICLIB")
        .expect("RIDDLEPOPPY_STATICLIB must name the folder that holds libcalls.a");
    println!("cargo:rustc-link-search=native={folder}");
    println!("cargo:rerun-if-changed={folder}/libcalls.a");
}
