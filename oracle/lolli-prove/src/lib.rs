//! lolli-prove's modules, from the folder given by LOLLI_SRC.

include!(concat!(env!("OUT_DIR"), "/modules.rs"));

pub use search::{held, Prover, ProverStats};
pub use verify::{verify_proof, ProofError};
