//! Document 01's answer numbers and limits, one name each.

pub const FOUND: u8 = 0;
pub const ACCEPTED: u8 = 0;
pub const NO: u8 = 1;
pub const WRONG_NUMBER: u8 = 2;
pub const WRONG_LENGTH: u8 = 3;
pub const WRONG_TAG: u8 = 4;
pub const TOO_HIGH: u8 = 5;
pub const TOO_WIDE: u8 = 6;
pub const TOO_MANY_FORMULAS: u8 = 7;
pub const BUDGET_SPENT: u8 = 8;
pub const TOO_MANY_FAILURES: u8 = 9;
pub const TOO_LONG: u8 = 10;
pub const INVALID_RULE: u8 = 13;
pub const WRONG_PREMISE_COUNT: u8 = 14;
pub const CONTEXT_MISMATCH: u8 = 15;
/// Of short trees: a step that the search's rules do not take.
pub const NO_STEP: u8 = 15;

pub const VERSION: u8 = 1;
pub const SHORT_VERSION: u8 = 2;
pub const MAX_FORMULA_HEIGHT: usize = 64;
pub const MAX_TREE_HEIGHT: usize = 65;
pub const MAX_SEQUENT: usize = 31;
pub const MAX_FORMULAS: usize = 2048;
pub const MAX_FAILURES: usize = 1000;
pub const MAX_BUDGET: u32 = 16_384;
pub const MAX_DEPTH: u8 = 64;
pub const MAX_BODY: usize = 65_535;
