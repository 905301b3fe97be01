//! Formulas, held in their byte form.
use crate::{ffi, told, written, Refusal};

pub(crate) const LOLLI: u8 = 10;
const PAR: u8 = 7;

/// A formula. One that is built may be higher than 64: the calls on it, and on a question that has it, then answer `TooHigh`.
#[derive(Clone, Debug, PartialEq, Eq, Hash)]
pub struct Formula(Vec<u8>);

impl Formula {
    /// The multiplicative units, 1 and ⊥, and the additive ones, ⊤ and 0.
    pub fn one() -> Self {
        Formula(vec![0])
    }

    /// ⊥
    pub fn bottom() -> Self {
        Formula(vec![1])
    }

    /// ⊤
    pub fn top() -> Self {
        Formula(vec![2])
    }

    /// 0
    pub fn zero() -> Self {
        Formula(vec![3])
    }

    /// The atom of this number: 17 is `a17`.
    pub fn atom(name: u16) -> Self {
        Self::named(4, name)
    }

    /// The negated atom of this number.
    pub fn neg_atom(name: u16) -> Self {
        Self::named(5, name)
    }

    /// self ⊗ other
    pub fn tensor(&self, other: &Self) -> Self {
        self.with_tag(6, other)
    }

    /// self ⅋ other
    pub fn par(&self, other: &Self) -> Self {
        self.with_tag(PAR, other)
    }

    /// self & other
    pub fn with(&self, other: &Self) -> Self {
        self.with_tag(8, other)
    }

    /// self ⊕ other
    pub fn plus(&self, other: &Self) -> Self {
        self.with_tag(9, other)
    }

    /// self ⊸ other
    pub fn lolli(&self, other: &Self) -> Self {
        self.with_tag(LOLLI, other)
    }

    /// !self
    pub fn of_course(&self) -> Self {
        Formula([&[11], self.as_bytes()].concat())
    }

    /// ?self
    pub fn why_not(&self) -> Self {
        Formula([&[12], self.as_bytes()].concat())
    }

    /// The formula that these bytes are.
    pub fn from_bytes(bytes: Vec<u8>) -> Result<Self, Refusal> {
        let (answer, _) = ffi::is_positive(&bytes);
        told(answer, Formula(bytes))
    }

    /// Its byte form.
    pub fn as_bytes(&self) -> &[u8] {
        &self.0
    }

    /// Its negation. At an implication that is not its own inverse.
    pub fn negate(&self) -> Result<Self, Refusal> {
        written(ffi::negate, &self.0, self.0.len()).map(Formula)
    }

    /// Every implication spelled out.
    pub fn desugar(&self) -> Result<Self, Refusal> {
        written(ffi::desugar, &self.0, self.0.len()).map(Formula)
    }

    /// Whether it is positive.
    pub fn is_positive(&self) -> Result<bool, Refusal> {
        let (answer, positive) = ffi::is_positive(&self.0);
        told(answer, positive)
    }

    /// As text with the signs of linear logic.
    pub fn pretty(&self) -> Result<String, Refusal> {
        written(ffi::pretty, &self.0, self.text_room()).map(|text| String::from_utf8(text).expect("the text is UTF-8"))
    }

    /// As ASCII text.
    pub fn pretty_ascii(&self) -> Result<String, Refusal> {
        written(ffi::pretty_ascii, &self.0, self.text_room()).map(|text| String::from_utf8(text).expect("the text is ASCII"))
    }

    /// An implication at the top spelled out, as trees write it; inner ones stay.
    pub(crate) fn spelled_at_top(&self) -> Result<Self, Refusal> {
        if self.0[0] != LOLLI {
            return Ok(self.clone());
        }
        let middle = 1 + first_length(&self.0[1..]);
        let left = Formula(self.0[1..middle].to_vec()).negate()?;
        Ok(left.par(&Formula(self.0[middle..].to_vec())))
    }

    fn named(tag: u8, name: u16) -> Self {
        let [high, low] = name.to_be_bytes();
        Formula(vec![tag, high, low])
    }

    fn with_tag(&self, tag: u8, other: &Self) -> Self {
        Formula([&[tag], self.as_bytes(), other.as_bytes()].concat())
    }

    // No byte of a formula brings more than nine of text: a sign with its spaces, two brackets, a mark.
    fn text_room(&self) -> usize {
        9 * self.0.len()
    }
}

/// How many bytes the first formula takes, in bytes that start with one.
pub(crate) fn first_length(bytes: &[u8]) -> usize {
    let mut wanted = 1;
    let mut at = 0;
    while wanted > 0 {
        match bytes[at] {
            0..=3 => wanted -= 1,
            4 | 5 => {
                wanted -= 1;
                at += 2;
            }
            11 | 12 => {}
            _ => wanted += 1,
        }
        at += 1;
    }
    at
}

/// The formulas that these bytes are, one behind the other.
pub(crate) fn formulas_in(mut bytes: &[u8]) -> Vec<Formula> {
    let mut all = Vec::new();
    while !bytes.is_empty() {
        let (first, rest) = bytes.split_at(first_length(bytes));
        all.push(Formula(first.to_vec()));
        bytes = rest;
    }
    all
}
