//! Links the proved static library from the folder named by VAKELUMBA_LIB.

use std::env;
use std::path::Path;

fn main() {
    println!("cargo:rerun-if-env-changed=VAKELUMBA_LIB");
    let Ok(given) = env::var("VAKELUMBA_LIB") else {
        panic!("VAKELUMBA_LIB is not set: give the folder that holds libvakelumba.a");
    };
    // Cargo starts a build script in the folder of its package; a relative folder is meant from where cargo was called.
    let folder = Path::new(&env::var("PWD").unwrap_or_default()).join(&given);
    let archive = folder.join("libvakelumba.a");
    assert!(archive.is_file(), "VAKELUMBA_LIB: no file {}", archive.display());
    println!("cargo:rerun-if-changed={}", archive.display());
    println!("cargo:rustc-link-search=native={}", folder.display());
    println!("cargo:rustc-link-lib=static=vakelumba");
}
