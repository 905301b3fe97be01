//! Short trees: what a weak signal carries in place of a tree. The sequents are left out and worked out again from the question.
use crate::search::LONGEST;
use crate::{ffi, Memory, Question, Refusal, Tree};
use std::fmt;

/// The answer for a step that the search's rules do not take.
const NO_STEP: u8 = 15;

/// Bytes that are taken for a short tree. Only `Memory::expand` reads them, since they say nothing without their question.
#[derive(Clone, Debug, PartialEq, Eq, Hash)]
pub struct ShortTree(Vec<u8>);

impl ShortTree {
    /// The short tree that these bytes are to be.
    pub fn from_bytes(bytes: Vec<u8>) -> Self {
        ShortTree(bytes)
    }

    /// Its byte form.
    pub fn as_bytes(&self) -> &[u8] {
        &self.0
    }
}

/// Why a tree was not shortened, or a short tree not expanded.
#[derive(Clone, Copy, Debug, PartialEq, Eq)]
pub enum ShortRefusal {
    /// The bytes, or what there is room for: answers 2 to 10.
    Refused(Refusal),
    /// Not a tree that the search's rules build for this question: some step is none of theirs (15).
    NoStep,
}

impl fmt::Display for ShortRefusal {
    fn fmt(&self, f: &mut fmt::Formatter<'_>) -> fmt::Result {
        match self {
            ShortRefusal::Refused(refusal) => refusal.fmt(f),
            ShortRefusal::NoStep => write!(f, "NoStep (answer {NO_STEP})"),
        }
    }
}

impl std::error::Error for ShortRefusal {}

type Call = fn(&[u8], &[u8], &mut [u16], &mut [u8]) -> (u8, usize);

impl Memory {
    /// The short form of a tree that the search's rules build for the question, as every found tree is one.
    pub fn shorten(&mut self, question: &Question, tree: &Tree) -> Result<ShortTree, ShortRefusal> {
        self.written(ffi::shorten, question, tree.as_bytes()).map(ShortTree)
    }

    /// The tree that a short one stands for. It is a proof of the question: strict mode accepts it, and it concludes what was asked.
    pub fn expand(&mut self, question: &Question, short: &ShortTree) -> Result<Tree, ShortRefusal> {
        let bytes = self.written(ffi::expand, question, short.as_bytes())?;
        Ok(Tree::from_bytes(bytes).expect("an expanded tree is read"))
    }

    fn written(&mut self, call: Call, question: &Question, message: &[u8]) -> Result<Vec<u8>, ShortRefusal> {
        let mut out = vec![0; LONGEST];
        let (answer, n) = call(question.as_bytes(), message, self.words(), &mut out);
        out.truncate(n);
        match answer {
            0 => Ok(out),
            NO_STEP => Err(ShortRefusal::NoStep),
            _ => Err(ShortRefusal::Refused(Refusal::of(answer))),
        }
    }
}
