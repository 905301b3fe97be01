//! Names the unchanged files formula.rs, sequent.rs and proof.rs as modules.

use std::fs;

fn main() {
    let mut modules = String::new();
    for name in ["formula", "sequent", "proof"] {
        modules += &source::module(name, &source::file("lolli-core", name));
    }
    fs::write(source::generated("modules.rs"), modules).expect("the build's folder can be written");
}
