//! A child module of search.rs: reads the prover's private cache.

use super::Prover;

/// The keys of the failures held, in no order.
pub fn keys(prover: &Prover) -> impl Iterator<Item = &Vec<String>> {
    prover.cache.iter()
}
