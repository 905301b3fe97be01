//! Where lolli's source stands. Used by the build scripts alone, so that no text of lolli is copied into this project.

use std::env;
use std::path::{Path, PathBuf};

/// The folder named by LOLLI_SRC. A relative one is taken from where cargo was called,
/// since cargo starts a build script in the folder of its package.
fn folder() -> PathBuf {
    println!("cargo:rerun-if-env-changed=LOLLI_SRC");
    let Ok(given) = env::var("LOLLI_SRC") else {
        panic!("LOLLI_SRC is not set: give the folder of lolli's source, the one that holds crates/lolli-core and crates/lolli-prove");
    };
    let called_from = env::var("PWD").unwrap_or_default();
    let path = Path::new(&called_from).join(&given);
    match path.join("crates").canonicalize() {
        Ok(crates) => crates,
        Err(why) => panic!("LOLLI_SRC={given} holds no folder `crates`, looked for at {}: {why}", path.display()),
    }
}

/// One file of lolli's source. The build runs again when it changes.
pub fn file(package: &str, module: &str) -> PathBuf {
    let path = folder().join(package).join("src").join(format!("{module}.rs"));
    assert!(path.is_file(), "LOLLI_SRC: no file {}", path.display());
    println!("cargo:rerun-if-changed={}", path.display());
    path
}

/// A line that makes the file a module.
pub fn module(name: &str, file: &Path) -> String {
    format!("#[path = {file:?}]\npub mod {name};\n")
}

/// A file in the build's own folder.
pub fn generated(name: &str) -> PathBuf {
    PathBuf::from(env::var("OUT_DIR").expect("OUT_DIR is set by cargo")).join(name)
}
