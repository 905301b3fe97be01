//! Names the unchanged files search.rs and verify.rs as modules. The prover's cache is private:
//! the text of search.rs goes into the build's folder with one line after it that names a child module, which may read the field.

use std::fs;
use std::path::Path;

fn main() {
    let held = Path::new(&std::env::var("CARGO_MANIFEST_DIR").expect("set by cargo")).join("src/held.rs");
    let text = fs::read_to_string(source::file("lolli-prove", "search")).expect("search.rs can be read");
    let search = source::generated("search.rs");
    fs::write(&search, text + "\n" + &source::module("held", &held)).expect("the build's folder can be written");

    let verify = source::file("lolli-prove", "verify");
    let modules = source::module("search", &search) + &source::module("verify", &verify);
    fs::write(source::generated("modules.rs"), modules).expect("the build's folder can be written");
}
