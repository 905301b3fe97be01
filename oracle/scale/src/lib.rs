//! The proved static library beside the unchanged Rust, in one process. See docs/SCALE.md.

pub mod bytes;
pub mod calls;
pub mod draw;
pub mod guarded;
pub mod image;
pub mod lent;
pub mod library;
pub mod session;
pub mod short;
pub mod tally;
