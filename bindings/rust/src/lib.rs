//! Vakelumba for Rust: a linear-logic prover and verifier whose calls are proved to meet their contracts, over libvakelumba.a.
//!
//! ```
//! use vakelumba::{Formula, Memory, Mode, Question, Search, Searched, Verdict};
//!
//! // a1, a1 -o a2 |- a2
//! let (a, b) = (Formula::atom(1), Formula::atom(2));
//! let question = Question::two_sided(&[a.clone(), a.lolli(&b)], &[b]).unwrap();
//! let (Searched::Found(tree), _) = Search::default().prove(&question, &mut Memory::new()) else { panic!() };
//! assert_eq!(tree.verify(Mode::Strict), Verdict::Accepted);
//! assert!(tree.concludes(&question));
//!
//! // Over the air goes the short tree; whoever knows the question expands it again.
//! let short = Memory::new().shorten(&question, &tree).unwrap();
//! assert_eq!((tree.as_bytes().len(), short.as_bytes().len()), (46, 13));
//! assert_eq!(Memory::new().expand(&question, &short), Ok(tree));
//! ```
#![deny(unsafe_code)]
#![warn(missing_docs)]

#[allow(unsafe_code)]
mod ffi;
mod formula;
mod question;
mod search;
mod short;
mod tree;

pub use ffi::Counters;
pub use formula::Formula;
pub use question::Question;
pub use search::{Memory, Search, Searched};
pub use short::{ShortRefusal, ShortTree};
pub use tree::{At, Mode, Tree, Verdict};

/// Why a call says neither yes nor no: document 01's answers 2 to 12.
#[derive(Clone, Copy, Debug, PartialEq, Eq)]
#[repr(u8)]
pub enum Refusal {
    /// Wrong version, kind or rule number.
    WrongNumber = 2,
    /// A length or end does not agree.
    WrongLength = 3,
    /// Formula tag above 12.
    WrongTag = 4,
    /// Formula higher than 64, or tree higher than 65.
    TooHigh = 5,
    /// A sequent of more than 31 formulas.
    TooMany = 6,
    /// More than 2,048 distinct formulas would be held.
    HeldFull = 7,
    /// The budget is spent.
    BudgetSpent = 8,
    /// 1,000 failures are held.
    FailuresFull = 9,
    /// Output longer than its buffer, or a tree body over 65,535 bytes.
    OutputShort = 10,
    /// Depth limit over 64, or budget 0 or over 16,384.
    WrongSetting = 11,
    /// The memory is not well-formed.
    WrongMemory = 12,
}

const REFUSALS: [Refusal; 11] = [
    Refusal::WrongNumber,
    Refusal::WrongLength,
    Refusal::WrongTag,
    Refusal::TooHigh,
    Refusal::TooMany,
    Refusal::HeldFull,
    Refusal::BudgetSpent,
    Refusal::FailuresFull,
    Refusal::OutputShort,
    Refusal::WrongSetting,
    Refusal::WrongMemory,
];

impl Refusal {
    /// The refusal of an answer from 2 to 12.
    fn of(answer: u8) -> Refusal {
        REFUSALS[usize::from(answer) - 2]
    }
}

impl std::fmt::Display for Refusal {
    fn fmt(&self, f: &mut std::fmt::Formatter<'_>) -> std::fmt::Result {
        write!(f, "{self:?} (answer {})", *self as u8)
    }
}

impl std::error::Error for Refusal {}

/// The value that comes with answer 0, or the refusal.
fn told<T>(answer: u8, value: T) -> Result<T, Refusal> {
    if answer == 0 {
        Ok(value)
    } else {
        Err(Refusal::of(answer))
    }
}

/// What a writer writes into a buffer of `room` bytes.
fn written(call: fn(&[u8], &mut [u8]) -> (u8, usize), s: &[u8], room: usize) -> Result<Vec<u8>, Refusal> {
    let mut out = vec![0; room];
    let (answer, n) = call(s, &mut out);
    out.truncate(n);
    told(answer, out)
}

/// A part of a message behind its two-byte length; None where it is longer than two bytes can say.
fn with_length(body: &[u8]) -> Option<Vec<u8>> {
    let n = u16::try_from(body.len()).ok()?;
    Some([&n.to_be_bytes(), body].concat())
}
