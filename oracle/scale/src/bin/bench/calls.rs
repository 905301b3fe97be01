//! The verifier, printing, and the test of a lent memory.

use crate::timing::{best, best_of_both};
use lolli_core::Formula;
use lolli_prove::verify_proof;
use oracle::answer::MAX_BODY;
use oracle::formula::{atom, bytes, PLUS, TENSOR};
use oracle::make::families::{balanced, ladder, RUNGS};
use oracle::{formula, tree};
use scale::library::{self, Writing};

/// One call on so many bytes: seconds of the library, and of the Rust where it has such a call.
pub struct Timed {
    pub name: String,
    pub bytes: usize,
    pub ours: f64,
    pub rusts: Option<f64>,
}

/// Both modes over one tree. The Rust has the first mode only. Its tree is already built, and once again read by the oracle.
pub fn verifying(name: &str, message: &[u8], rounds: u32) -> [Timed; 3] {
    let proof = tree::read(message).expect("a tree in bytes");
    let verdict = library::verify(message, false);
    assert_eq!(verdict.answer == 0, verify_proof(&proof).is_ok(), "{name}");
    let (ours, rusts) =
        best_of_both(rounds, || library::verify(message, false).answer, || verify_proof(&proof).is_ok());
    let (read, read_by_rust) = best_of_both(
        rounds,
        || library::verify(message, false).answer,
        || tree::read(message).map(|proof| verify_proof(&proof).is_ok()),
    );
    let strict = best(rounds, || library::verify(message, true).answer);
    let timed = |mode, ours, rusts| Timed { name: format!("{mode}: {name}"), bytes: message.len(), ours, rusts };
    [
        timed("verify, shape", ours, Some(rusts)),
        timed("read and verify, shape", read, Some(read_by_rust)),
        timed("verify, strict", strict, None),
    ]
}

/// Formulas whose printing is measured: wide, high, and one name.
pub fn printed() -> Vec<(&'static str, Formula)> {
    vec![
        ("tensor of 1,024 names", balanced(TENSOR, 10, &atom)),
        ("Plus of 16 names", balanced(PLUS, 4, &atom)),
        ("every sign, height 64", ladder(&RUNGS, 64)),
        ("one name", atom(1)),
    ]
}

/// Printing in UTF-8, counted in bytes of the text.
pub fn printing(name: &str, printed: &Formula, rounds: u32) -> Timed {
    let (held, text) = (bytes(printed), printed.pretty());
    let mut out = vec![0; 4 * MAX_BODY];
    let said = library::write(Writing::Pretty, &held, &mut out);
    assert_eq!((said.answer, &out[..said.value]), (0, text.as_bytes()), "{name}");
    let ours = || library::write(Writing::Pretty, &held, &mut out).value;
    let (ours, rusts) = best_of_both(rounds, ours, || printed.pretty().len());
    Timed { name: format!("print: {name}"), bytes: text.len(), ours, rusts: Some(rusts) }
}

/// The same with the formula read from its bytes on both sides; the Rust's reading is the oracle's.
pub fn reading_and_printing(name: &str, printed: &Formula, rounds: u32) -> Timed {
    let held = bytes(printed);
    let mut out = vec![0; 4 * MAX_BODY];
    let ours = || library::write(Writing::Pretty, &held, &mut out).value;
    let (ours, rusts) = best_of_both(rounds, ours, || formula::read(&held).map(|f| f.pretty().len()));
    Timed { name: format!("read and print: {name}"), bytes: printed.pretty().len(), ours, rusts: Some(rusts) }
}

/// The test that begins every call of `prove`, and `reset`.
pub fn memory_test(name: &str, words: &[u16], is_right: bool, rounds: u32) -> Timed {
    assert_eq!(library::well_formed(words) == 0, is_right, "{name}");
    let ours = best(rounds, || library::well_formed(words));
    Timed { name: format!("well_formed: {name}"), bytes: 2 * words.len(), ours, rusts: None }
}

pub fn resetting(words: &mut [u16], rounds: u32) -> Timed {
    let ours = best(rounds, || library::reset(words));
    Timed { name: "reset".into(), bytes: 2 * words.len(), ours, rusts: None }
}
