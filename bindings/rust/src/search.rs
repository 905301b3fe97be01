//! The search, and the memory that it works in.
use crate::ffi::{self, Counters};
use crate::{told, Question, Refusal, Tree};

/// The longest message: version, length, and a body of 65,535 bytes.
pub(crate) const LONGEST: usize = 3 + 65_535;

/// The words in which a search holds formulas and failures. Failures stay from search to search, until `reset`.
#[derive(Clone)]
pub struct Memory(Box<[u16]>);

impl Memory {
    /// A memory that holds nothing.
    pub fn new() -> Self {
        let mut memory = Memory(vec![0; ffi::memory_words()].into_boxed_slice());
        memory.reset();
        memory
    }

    /// The memory that these words are, where they are well-formed.
    pub fn from_words(words: Vec<u16>) -> Result<Self, Refusal> {
        told(ffi::well_formed(&words), Memory(words.into_boxed_slice()))
    }

    /// Its words.
    pub fn as_words(&self) -> &[u16] {
        &self.0
    }

    /// Its words, to be lent.
    pub(crate) fn words(&mut self) -> &mut [u16] {
        &mut self.0
    }

    /// It holds nothing any more.
    pub fn reset(&mut self) {
        assert_eq!(ffi::reset(&mut self.0), 0, "a memory has the right length");
    }
}

impl Default for Memory {
    fn default() -> Self {
        Self::new()
    }
}

/// The settings of a search.
#[derive(Clone, Copy, Debug, PartialEq, Eq)]
pub struct Search {
    /// The depth up to which it searches, at most 64.
    pub limit: usize,
    /// How many sequents it may visit, from 1 to 16,384.
    pub budget: usize,
    /// Whether sequents that failed are recorded and not searched again.
    pub cache: bool,
}

impl Default for Search {
    fn default() -> Self {
        Search {
            limit: 32,
            budget: 16_384,
            cache: true,
        }
    }
}

/// What a search says.
#[derive(Clone, Debug, PartialEq, Eq)]
pub enum Searched {
    /// A tree of the question.
    Found(Tree),
    /// It ended without a tree, which does not mean that there is none.
    Nothing,
    /// It did not end, or did not begin.
    Refused(Refusal),
}

impl Search {
    /// Searches for a tree of the question.
    pub fn prove(&self, question: &Question, memory: &mut Memory) -> (Searched, Counters) {
        let set = ffi::Settings {
            limit: self.limit,
            budget: self.budget,
            cache: self.cache,
        };
        // A budget that is refused needs no work words.
        let mut work = vec![0; self.budget.min(16_384)];
        let mut out = vec![0; LONGEST];
        let (answer, n, counters) = ffi::prove(question.as_bytes(), set, &mut memory.0, &mut work, &mut out);
        out.truncate(n);
        let said = match answer {
            0 => Searched::Found(Tree::from_bytes(out).expect("a found tree is read")),
            1 => Searched::Nothing,
            _ => Searched::Refused(Refusal::of(answer)),
        };
        (said, counters)
    }
}
