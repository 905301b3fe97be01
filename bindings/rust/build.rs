//! Finds libvakelumba.a: in the folder that VAKELUMBA_LIB_DIR names, or where `rt lib` in crates/vakelumba writes it in this repository.
use std::env;
use std::path::PathBuf;

fn main() {
    let folder = match env::var_os("VAKELUMBA_LIB_DIR") {
        Some(given) => PathBuf::from(given),
        None => PathBuf::from(env::var_os("CARGO_MANIFEST_DIR").expect("cargo sets it")).join("../../crates/vakelumba/out"),
    };
    println!("cargo:rustc-link-search=native={}", folder.display());
    println!("cargo:rustc-link-lib=static=vakelumba");
    println!("cargo:rerun-if-env-changed=VAKELUMBA_LIB_DIR");
    println!("cargo:rerun-if-changed={}", folder.join("libvakelumba.a").display());
}
