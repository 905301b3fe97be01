//! Makes the contents of the stored list, all from fixed seeds.

pub mod costly;
pub mod families;
pub mod formulas;
pub mod fragment;
pub mod sequents;
pub mod sessions;
pub mod settled;
pub mod steps;
pub mod trees;

use crate::question::Question;

/// The questions of one session: whether the cache is on, and each question after its depth limit.
pub type Asks = (bool, Vec<(u8, Question)>);
