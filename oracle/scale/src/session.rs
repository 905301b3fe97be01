//! Questions that share a memory, asked of the library, of the model, and of the unchanged Rust as long as no limit has kept it from being in step.

use crate::guarded::Guarded;
use crate::image::{failure_count, failures_from};
use crate::lent::Lent;
use crate::library::{self, Proved};
use crate::tally::{hex, Difference};
use oracle::answer::{FOUND, NO, TOO_LONG};
use oracle::ask::Asker;
use oracle::model::{Counters, Reply, Settings};
use oracle::question::Question;

/// Room for any tree message.
const AMPLE: usize = 65_538;
/// What the Rust may build ahead at a tensor.
const BESIDE: usize = 12;
const SPLITS: u64 = 1 << 15;

const FILL: u8 = 0xA5;
const GUARD: u8 = 0x5A;
const WORK_GUARD: u64 = 0x5A5A_1234_5A5A_1234;

/// One call of `prove`.
#[derive(Clone, Debug)]
pub struct Ask {
    pub message: Vec<u8>,
    pub limit: u8,
    pub budget: u32,
    pub cache: bool,
    /// The output is so many bytes longer or shorter than the tree.
    pub spare: isize,
}

/// Who was compared with the library, and what it answered.
pub struct Compared {
    pub by_rust: bool,
    pub answer: u8,
    pub counters: Counters,
    /// Failures recorded.
    pub recorded: usize,
    /// The tree message, empty if there is none.
    pub tree: Vec<u8>,
}

/// One memory, held by all three.
pub struct Run {
    pub lent: Lent,
    work: Guarded<u64>,
    /// Cache on. None after a question that the Rust could not be asked and that left failures.
    caching: Option<Asker>,
    /// Cache off: it keeps nothing.
    plain: Asker,
}

impl Run {
    pub fn fresh() -> Self {
        Run {
            lent: Lent::fresh(),
            work: Guarded::filled(0, 0, WORK_GUARD),
            caching: Some(Asker::new(true)),
            plain: Asker::new(false),
        }
    }

    /// The same run with a fresh memory, by the library's `reset`.
    pub fn reset(&mut self) -> bool {
        self.caching = Some(Asker::new(true));
        self.lent.reset()
    }

    /// Asks all three, and says what differs.
    pub fn ask(&mut self, ask: &Ask) -> Result<Compared, String> {
        let before = failure_count(self.lent.image());
        let Ask { limit, budget, cache, .. } = *ask;
        let reply = self.lent.model.ask(&ask.message, Settings { limit, budget, cache, room: AMPLE });
        self.lent.follow();
        let answer = self.compare_with_model(ask, &reply)?;
        let by_rust = self.compare_with_rust(ask, &reply, before)?;
        let recorded = failure_count(self.lent.image()) - before;
        Ok(Compared { by_rust, answer, counters: reply.counters, recorded, tree: reply.tree })
    }

    /// Number, counters, every byte of the output, every word of the memory, the work words past the budget.
    fn compare_with_model(&mut self, ask: &Ask, reply: &Reply) -> Result<u8, String> {
        let room = reply.tree.len().saturating_add_signed(ask.spare);
        let is_written = reply.answer == FOUND && reply.tree.len() <= room;
        let want = Proved {
            answer: if reply.answer == FOUND && !is_written { TOO_LONG } else { reply.answer },
            counters: reply.counters,
            written: if is_written { reply.tree.len() } else { 0 },
        };
        let (limit, budget) = (usize::from(ask.limit), ask.budget as usize);
        if self.work.seen().len() != budget {
            self.work = Guarded::filled(0, budget, WORK_GUARD);
        }
        let mut out = Guarded::filled(FILL, room, GUARD);
        let settings = library::Settings { limit, budget, cache: ask.cache };
        let proved = library::prove(&ask.message, settings, self.lent.words.lent(), self.work.lent(), out.lent());
        if proved != want {
            return Err(format!("prove: {proved:?}, by the model {want:?}"));
        }
        let (written, rest) = out.seen().split_at(want.written);
        if written != &reply.tree[..want.written] || rest.iter().any(|&byte| byte != FILL) {
            return Err("prove: the output's bytes are not the model's".into());
        }
        if let Some(fault) = self.lent.fault() {
            return Err(format!("prove: {fault}"));
        }
        if !(out.is_intact() && self.work.is_intact()) {
            return Err("prove: something was written beside a lent slice".into());
        }
        Ok(want.answer)
    }

    /// Answer, counters, tree and new failures, as far as the Rust can be asked. Says whether it was.
    fn compare_with_rust(&mut self, ask: &Ask, reply: &Reply, before: usize) -> Result<bool, String> {
        let can_be_asked = reply.answer <= NO && reply.splits.widest <= BESIDE && reply.splits.built <= SPLITS;
        let asker = if ask.cache { self.caching.as_mut() } else { Some(&mut self.plain) };
        let (true, Some(asker)) = (can_be_asked, asker) else {
            if failure_count(self.lent.words.seen()) > before {
                self.caching = None;
            }
            return Ok(false);
        };
        let question = Question::read(&ask.message).expect("the model has read it");
        let rust = asker.ask(ask.limit, &question);
        let told = (rust.answer, rust.explored, rust.hits, rust.reached);
        let counters = reply.counters;
        if told != (reply.answer, counters.explored, counters.hits, counters.reached) || rust.tree != reply.tree {
            return Err(format!("prove: by the Rust {rust:?}"));
        }
        if rust.new_failures != failures_from(self.lent.words.seen(), before) {
            return Err(format!("prove: other failures than the Rust's {:?}", rust.new_failures));
        }
        Ok(true)
    }
}

/// What differs at the last question, if the others differ in nothing.
fn differs(asks: &[Ask]) -> Option<String> {
    let mut run = Run::fresh();
    asks.iter().find_map(|ask| run.ask(ask).err())
}

/// The session that differs at its last question, with every question left out that it does not need.
pub fn smallest(asks: &[Ask]) -> Difference {
    let mut asks = asks.to_vec();
    let mut place = 0;
    while place + 1 < asks.len() {
        let mut fewer = asks.clone();
        fewer.remove(place);
        if differs(&fewer).is_some() {
            asks = fewer;
        } else {
            place += 1;
        }
    }
    let what = differs(&asks).unwrap_or_else(|| "only after other sessions".into());
    let settings = |ask: &Ask| {
        let Ask { limit, budget, cache, spare, .. } = ask;
        format!("limit {limit} budget {budget} cache {cache} spare {spare}: ")
    };
    let last = asks.pop();
    let mut around: String = asks.iter().map(|ask| settings(ask) + &hex(&ask.message) + "\n").collect();
    around += &last.as_ref().map_or(String::new(), settings);
    Difference { what, input: last.map_or(vec![], |ask| ask.message), around }
}
