//! The oracle: asks the unchanged Rust of lolli, and reads and writes what it answered. See docs/ORACLE.md.

pub mod answer;
pub mod antt;
pub mod ask;
pub mod cursor;
pub mod filter;
pub mod formula;
pub mod lists;
pub mod make;
pub mod model;
pub mod question;
pub mod random;
pub mod records;
pub mod report;
pub mod short;
pub mod strict;
pub mod text;
pub mod tree;
pub mod verdict;
