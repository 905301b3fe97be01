//! A model of document 01's limited search, apart from the Rust: formulas by number, failures as sorted item lists,
//! budget and refusals. It keeps questions that meet a limit out of the stored list, and serves later tests.
//! Where it meets no limit it has to agree with the Rust in everything; where they differ the Rust decides.

mod memory;
mod search;

pub use memory::{Held, Item, Memory, Number};
pub use search::{Node, Zones};

use crate::answer::{FOUND, MAX_BUDGET, MAX_DEPTH, NO};
use crate::cursor::Read;
use crate::question::Question;
use search::Search;

/// A depth limit over 64, or a budget of 0 or over 16,384.
pub const WRONG_SETTING: u8 = 11;

#[derive(Clone, Copy, Debug)]
pub struct Settings {
    pub limit: u8,
    pub budget: u32,
    pub cache: bool,
    /// The length of the output buffer.
    pub room: usize,
}

#[derive(Clone, Copy, Debug, Default, PartialEq, Eq)]
pub struct Counters {
    pub explored: u32,
    pub hits: u32,
    pub reached: u8,
}

/// What the Rust has to build ahead at tensors, which the model does not.
#[derive(Clone, Copy, Debug, Default)]
pub struct Splits {
    /// The most formulas that stood beside a tensor when it was tried.
    pub widest: usize,
    /// All splits that the Rust builds in this call.
    pub built: u64,
}

#[derive(Clone, Debug, Default)]
pub struct Reply {
    /// Document 01's number.
    pub answer: u8,
    pub counters: Counters,
    /// The tree message, empty if there is none.
    pub tree: Vec<u8>,
    pub splits: Splits,
}

impl Reply {
    fn refused(answer: u8) -> Self {
        Reply { answer, ..Reply::default() }
    }
}

impl Memory {
    /// One call of `prove` on a question message. Order: 11, reading, 7 for the whole question, search, 10.
    pub fn ask(&mut self, message: &[u8], settings: Settings) -> Reply {
        if settings.limit > MAX_DEPTH || settings.budget == 0 || settings.budget > MAX_BUDGET {
            return Reply::refused(WRONG_SETTING);
        }
        let entered = Question::read(message).and_then(|question| self.enter_question(&question));
        match entered {
            Ok(zones) => self.search(zones, settings),
            Err(refusal) => Reply::refused(refusal),
        }
    }

    fn search(&mut self, zones: Zones, settings: Settings) -> Reply {
        let mut search = Search::new(self, settings);
        let found = search.visit(zones, 0);
        let mut reply = Reply { counters: search.counters, splits: search.splits, ..Reply::default() };
        match self.written(found, settings.room) {
            Ok(Some(tree)) => (reply.answer, reply.tree) = (FOUND, tree),
            Ok(None) => reply.answer = NO,
            Err(refusal) => reply.answer = refusal,
        }
        reply
    }

    fn written(&self, found: Read<Option<Node>>, room: usize) -> Read<Option<Vec<u8>>> {
        match found? {
            Some(node) => self.tree_message(&node, room).map(Some),
            None => Ok(None),
        }
    }
}

#[cfg(test)]
mod tests;
