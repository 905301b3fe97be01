//! Questions, held in their byte form.
use crate::formula::{formulas_in, Formula};
use crate::{ffi, told, with_length, written, Refusal};

const VERSION: u8 = 1;
const ONE_SIDED: u8 = 1;
const TWO_SIDED: u8 = 2;

/// Where the first zone stands: behind version, length and kind.
const FIRST_ZONE: usize = 4;

/// A question that the library reads.
#[derive(Clone, Debug, PartialEq, Eq, Hash)]
pub struct Question(Vec<u8>);

impl Question {
    /// The sequent with these formulas in its linear and in its unrestricted zone.
    pub fn one_sided(linear: &[Formula], unrestricted: &[Formula]) -> Result<Self, Refusal> {
        Self::of_kind(ONE_SIDED, linear, unrestricted)
    }

    /// antecedent ⊢ succedent
    pub fn two_sided(antecedent: &[Formula], succedent: &[Formula]) -> Result<Self, Refusal> {
        Self::of_kind(TWO_SIDED, antecedent, succedent)
    }

    /// The question that these bytes are.
    pub fn from_bytes(bytes: Vec<u8>) -> Result<Self, Refusal> {
        let mut out = vec![0; bytes.len()];
        let (answer, _) = ffi::to_one_sided(&bytes, &mut out);
        told(answer, Question(bytes))
    }

    /// Its byte form.
    pub fn as_bytes(&self) -> &[u8] {
        &self.0
    }

    /// The same question one-sided: antecedents negated, before the succedent.
    pub fn to_one_sided(&self) -> Self {
        Question(written(ffi::to_one_sided, &self.0, self.0.len()).expect("the question was read"))
    }

    /// The formulas of its two zones.
    pub fn zones(&self) -> (Vec<Formula>, Vec<Formula>) {
        let (first, rest) = zone_at(&self.0[FIRST_ZONE..]);
        let (second, _) = zone_at(rest);
        (formulas_in(first), formulas_in(second))
    }

    fn of_kind(kind: u8, first: &[Formula], second: &[Formula]) -> Result<Self, Refusal> {
        let zones = zone_of(first).zip(zone_of(second)).ok_or(Refusal::WrongLength)?;
        let body = with_length(&[&[kind], &zones.0[..], &zones.1[..]].concat()).ok_or(Refusal::WrongLength)?;
        Self::from_bytes([&[VERSION], &body[..]].concat())
    }
}

fn zone_of(formulas: &[Formula]) -> Option<Vec<u8>> {
    let bytes: Vec<u8> = formulas.iter().flat_map(|f| f.as_bytes().iter().copied()).collect();
    with_length(&bytes)
}

/// The bytes of the zone at the front, and what stands behind it.
pub(crate) fn zone_at(bytes: &[u8]) -> (&[u8], &[u8]) {
    let n = usize::from(u16::from_be_bytes([bytes[0], bytes[1]]));
    bytes[2..].split_at(n)
}
