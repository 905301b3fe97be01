//! lolli-core's modules, from the folder given by LOLLI_SRC.

include!(concat!(env!("OUT_DIR"), "/modules.rs"));

pub use formula::Formula;
pub use proof::{Proof, Rule};
pub use sequent::{Sequent, TwoSidedSequent};
