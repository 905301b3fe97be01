//! The calls on formulas, on trees, and `to_one_sided`, on any bytes: what the Rust answers, or the refusal of reading, against the library.

use crate::guarded::Guarded;
use crate::library::{self, Said, Writing, OVER_FORMULAS};
use crate::tally::Difference;
use lolli_core::TwoSidedSequent;
use oracle::answer::TOO_LONG;
use oracle::cursor::Read;
use oracle::question::Question;
use oracle::random::Random;
use oracle::records::{FormulaRecord, TreeRecord};
use oracle::verdict::Verdict;
use oracle::{formula, tree};

const FILL: u8 = 0xA5;
const GUARD: u8 = 0x5A;

fn differing(what: String, input: &[u8]) -> Option<Difference> {
    Some(Difference { what, input: input.to_vec(), around: String::new() })
}

/// A length for the output: exact, short, empty or ample.
pub fn room(random: &mut Random, wanted: usize) -> usize {
    match random.below(8) {
        0 => 0,
        1 => wanted.saturating_sub(1),
        2 => random.below(wanted + 1),
        3 | 4 => wanted,
        _ => wanted + random.between(1, 40),
    }
}

/// One call that writes: number, length, every byte of the output, and the cells beside it.
fn check_writing(random: &mut Random, writing: Writing, s: &[u8], wanted: Read<&[u8]>) -> Option<Difference> {
    let length = wanted.map_or(s.len(), <[u8]>::len);
    let room = room(random, length);
    let mut out = Guarded::filled(FILL, room, GUARD);
    let said = library::write(writing, s, out.lent());
    let (want, front) = match wanted {
        Err(refusal) => (Said::refused(refusal), &[][..]),
        Ok(bytes) if bytes.len() > room => (Said::refused(TOO_LONG), &[][..]),
        Ok(bytes) => (Said { answer: 0, value: bytes.len() }, bytes),
    };
    if said != want {
        return differing(format!("{writing:?}, room {room}: {said:?}, wanted {want:?}"), s);
    }
    let (written, rest) = out.seen().split_at(front.len());
    if written != front || rest.iter().any(|&byte| byte != FILL) || !out.is_intact() {
        return differing(format!("{writing:?}, room {room}: the output's bytes"), s);
    }
    None
}

/// All calls on one formula in bytes.
pub fn formula(random: &mut Random, s: &[u8]) -> Option<Difference> {
    let record = formula::read(s).map(|f| FormulaRecord::of(&f));
    let record = record.as_ref().map_err(|&refusal| refusal);
    for writing in OVER_FORMULAS {
        let wanted = record.map(|record| match writing {
            Writing::Negate => &record.negate[..],
            Writing::Desugar => &record.desugar,
            Writing::Pretty => &record.pretty,
            _ => &record.pretty_ascii,
        });
        let found = check_writing(random, writing, s, wanted);
        if found.is_some() {
            return found;
        }
    }
    let want = match record {
        Ok(record) => Said { answer: 0, value: usize::from(record.is_positive) },
        Err(refusal) => Said::refused(refusal),
    };
    let said = library::is_positive(s);
    (said != want).then(|| differing(format!("is_positive: {said:?}, wanted {want:?}"), s))?
}

/// `to_one_sided` of one question message.
pub fn one_sided(random: &mut Random, s: &[u8]) -> Option<Difference> {
    let wanted = Question::read(s).map(|question| match question {
        Question::OneSided { .. } => s.to_vec(),
        Question::TwoSided { antecedent, succedent } => {
            let sequent = TwoSidedSequent::new(antecedent, succedent).to_one_sided();
            let turned = Question::one_sided(sequent.linear, sequent.unrestricted);
            turned.message().expect("negation keeps the length")
        }
    });
    check_writing(random, Writing::ToOneSided, s, wanted.as_deref().map_err(|&refusal| refusal))
}

/// `depth`, and both modes of the verifier, of one tree message.
pub fn tree(s: &[u8]) -> Option<Difference> {
    let record = tree::read(s).map(|proof| TreeRecord::of(s.to_vec(), &proof));
    let want = match &record {
        Ok(record) => Said { answer: 0, value: usize::from(record.depth) },
        Err(refusal) => Said::refused(*refusal),
    };
    let said = library::depth(s);
    if said != want {
        return differing(format!("depth: {said:?}, wanted {want:?}"), s);
    }
    let refused = |refusal: &u8| Verdict { answer: *refusal, ..Verdict::default() };
    for strict in [false, true] {
        let want = record.as_ref().map_or_else(refused, |record| if strict { record.strict } else { record.verdict });
        let said = library::verify(s, strict);
        if said != want {
            return differing(format!("verify, strict {strict}: {said:?}, wanted {want:?}"), s);
        }
    }
    None
}
