//! Where the stored lists stand below the root of the repository, each of them once: as the standard input of the program that replays it.

use crate::cursor::Read;
use std::path::Path;

pub const FORMULAS: &str = "crates/replay_formulas/stdin";
pub const QUESTIONS: &str = "crates/replay_questions/stdin";
pub const TREES: &str = "crates/replay_trees/stdin";
pub const SESSIONS: &str = "crates/replay_sessions/stdin";

pub fn read<T>(root: &Path, list: &str, records: impl Fn(&[u8]) -> Read<T>) -> T {
    let bytes = std::fs::read(root.join(list)).unwrap_or_else(|why| panic!("{list}: {why}"));
    records(&bytes).unwrap_or_else(|_| panic!("{list} does not divide into records"))
}

pub fn write(root: &Path, list: &str, bytes: &[u8]) {
    let file = root.join(list);
    let folder = file.parent().expect("a list stands in a folder");
    std::fs::create_dir_all(folder).expect("the folder can be made");
    std::fs::write(file, bytes).expect("the file can be written");
    println!("{list}: {} bytes\n", bytes.len());
}
