//! Keeps questions that meet a limit of document 01 out of the stored list, since the unchanged Rust has no limits,
//! and says beforehand what the Rust has to answer.

use crate::answer::{MAX_BUDGET, NO};
use crate::formula;
use crate::model::{Memory, Settings};
use crate::records::{Asked, Failure};

/// The longest tree message.
const ROOM: usize = 65_538;

/// How much one question may cost here, within document 01's limits.
#[derive(Clone, Copy, Debug)]
pub struct Caps {
    pub visits: u32,
    /// Formulas beside a tensor: the Rust builds all splits of them at once.
    pub beside: usize,
    /// Splits built in one question.
    pub splits: u64,
    /// Bytes of the stored answer.
    pub bytes: usize,
}

impl Caps {
    /// Nothing but document 01's limits, and what the Rust can hold at a tensor.
    pub const LIMITS: Caps = Caps { visits: MAX_BUDGET, beside: 13, splits: 1 << 24, bytes: usize::MAX };
}

pub struct Filter {
    memory: Memory,
    cache: bool,
}

impl Filter {
    pub fn new(cache: bool) -> Self {
        Filter { memory: Memory::fresh(), cache }
    }

    pub fn memory(&self) -> &Memory {
        &self.memory
    }

    /// What the model says of a question that stays within all limits. Otherwise none, and the model's memory is unchanged.
    pub fn ask(&mut self, limit: u8, message: &[u8], caps: Caps) -> Option<Asked> {
        let mut memory = self.memory.clone();
        let settings = Settings { limit, budget: caps.visits, cache: self.cache, room: ROOM };
        let reply = memory.ask(message, settings);
        if reply.answer > NO || reply.splits.widest > caps.beside || reply.splits.built > caps.splits {
            return None;
        }
        let expected = Asked {
            limit,
            question: message.to_vec(),
            answer: reply.answer,
            explored: reply.counters.explored,
            hits: reply.counters.hits,
            reached: reply.counters.reached,
            tree: reply.tree,
            held: memory.failures().len() as u16,
            new_failures: failures_since(&memory, self.memory.failures().len()),
        };
        if expected.length() > caps.bytes {
            return None;
        }
        self.memory = memory;
        Some(expected)
    }
}

fn failures_since(memory: &Memory, before: usize) -> Vec<Failure> {
    let bytes = |item: &u32| formula::bytes(&memory.item_formula(*item));
    let new = memory.failures()[before..].iter();
    let mut failures: Vec<Failure> = new.map(|items| Failure::of(items.iter().map(bytes).collect())).collect();
    failures.sort();
    failures
}
