//! Arbitrary bytes, words, settings and lengths for every call: `fuzz [CALLS] [SEED] [bare]`. Every buffer has guard cells on both sides; with `bare` it has none and is a block of its own, for a memory checker.
//! Prints counts by call and answer; with anything wrong it prints the smallest input and ends with status 1.

use lolli_core::Proof;
use oracle::answer::{MAX_BUDGET, MAX_DEPTH, MAX_FAILURES, MAX_FORMULAS};
use oracle::make::fragment::{formula, mixed};
use oracle::make::{steps, trees};
use oracle::model::{Memory, Settings as Asking};
use oracle::question::Question;
use oracle::random::Random;
use oracle::{formula, tree};
use scale::guarded::{self, Guarded};
use scale::image::{extends, is_well_formed, Image, FAILURES, FAILURE_ORDER, ORDER, WORDS};
use scale::lent::Lent;
use scale::library::{self, Settings, Shorting};
use scale::session::Ask;
use scale::short::{Asked, Shortened, AMPLE};
use scale::tally::{Difference, Tally};
use scale::{bytes, calls, draw};
use std::process::{abort, exit};
use std::sync::atomic::{AtomicU64, Ordering};
use std::thread;
use std::time::{Duration, Instant};

/// A call that takes longer than this many seconds is taken not to end.
const PATIENCE: u64 = 120;
const WRONG_SETTING: u8 = 11;
const WRONG_MEMORY: u8 = 12;

/// The number of the call that runs.
static RUNNING: AtomicU64 = AtomicU64::new(0);

fn number(place: usize, usual: u64) -> u64 {
    std::env::args().nth(place).map_or(usual, |text| text.parse().expect("usage: fuzz [CALLS] [SEED]"))
}

/// Ends the program if one call runs too long.
fn watch() {
    let mut last = u64::MAX;
    loop {
        thread::sleep(Duration::from_secs(PATIENCE));
        let now = RUNNING.load(Ordering::Relaxed);
        if now == last {
            eprintln!("call {now} does not end");
            abort();
        }
        last = now;
    }
}

fn main() {
    let (calls, seed) = (number(1, 1_000_000), number(2, 1));
    if std::env::args().nth(3).as_deref() == Some("bare") {
        guarded::bare();
    }
    thread::spawn(watch);
    let started = Instant::now();
    let mut fuzz = Fuzz::new(seed);
    let mut tally = Tally::default();
    assert_eq!(library::memory_words(), WORDS);
    for call in 0..calls {
        RUNNING.store(call, Ordering::Relaxed);
        let (kind, found) = fuzz.call();
        tally.count(&kind, found);
    }
    println!("calls: {calls}, seed: {seed}, seconds: {}", started.elapsed().as_secs());
    exit(i32::from(!tally.print()));
}

/// Good messages and good memories, from which the others are made.
struct Fuzz {
    random: Random,
    formulas: Vec<Vec<u8>>,
    questions: Vec<Vec<u8>>,
    trees: Vec<Vec<u8>>,
    found: Vec<Shortened>,
    memories: Vec<Vec<u16>>,
}

/// The found trees of a session's questions.
fn found(asks: &[Ask]) -> Vec<Shortened> {
    let mut memory = Memory::fresh();
    let mut trees = Vec::new();
    for ask in asks {
        let settings = Asking { limit: ask.limit, budget: ask.budget, cache: ask.cache, room: AMPLE };
        let reply = memory.ask(&ask.message, settings);
        if reply.answer == 0 {
            let short = memory.shorten(&ask.message, &reply.tree, AMPLE).expect("a found tree");
            trees.push(Shortened { question: ask.message.clone(), tree: reply.tree, short });
        }
    }
    trees
}

type Found = (String, Option<Difference>);

impl Fuzz {
    fn new(seed: u64) -> Self {
        let mut random = Random::new(seed);
        let mut formulas = Vec::new();
        for nodes in 1..60 {
            formulas.push(formula::bytes(&formula(&mut random, mixed(), &[1, 2, 65_535], nodes)));
        }
        let mut sessions = draw::fixed();
        for kind in &draw::KINDS {
            sessions.extend((0..3).map(|_| (kind.draw)(&mut random)));
        }
        let questions = sessions.concat().into_iter().map(|ask| ask.message).collect();
        let proofs: Vec<Proof> = [trees::settled(), steps::make(seed, 200, 2)].concat();
        let trees = proofs.iter().map(|proof| tree::message(proof).expect("it fits")).collect();
        let mut memories = vec![vec![0; WORDS]];
        for asks in sessions.iter().rev().step_by(3) {
            let (mut memory, mut image) = (Memory::fresh(), Image::default());
            for ask in asks {
                let settings = Asking { limit: ask.limit, budget: ask.budget, cache: ask.cache, room: AMPLE };
                memory.ask(&ask.message, settings);
            }
            image.follow(&memory);
            memories.push(image.words().to_vec());
        }
        let found = sessions.iter().flat_map(|asks| found(asks)).collect();
        Fuzz { random, formulas, questions, trees, found, memories }
    }

    fn call(&mut self) -> Found {
        match self.random.below(13) {
            0 | 1 => {
                let s = self.bytes();
                ("calls on formulas".into(), calls::formula(&mut self.random, &s))
            }
            2 | 3 => ("depth, verify in both modes".into(), calls::tree(&self.bytes())),
            4 => {
                let s = self.bytes();
                ("to_one_sided".into(), calls::one_sided(&mut self.random, &s))
            }
            5 => self.well_formed(),
            6 if self.random.once_in(4) => self.reset(),
            7..=9 => self.short(),
            _ => self.prove(),
        }
    }

    /// A good message, a damaged one, or none: for any call, whatever the message was for.
    fn bytes(&mut self) -> Box<[u8]> {
        let from = self.random.below(5);
        let message = match [&self.formulas, &self.questions, &self.trees, &self.questions].get(from) {
            Some(list) => self.random.pick(list).clone(),
            None => self.random.pick(&self.found).short.clone(),
        };
        let bytes = match self.random.below(4) {
            0 => message,
            1 => bytes::drawn(&mut self.random),
            _ => bytes::damaged(&mut self.random, &message),
        };
        bytes.into_boxed_slice()
    }

    /// Good words, good words with some changed, words at random, or words of another number.
    fn words(&mut self) -> Vec<u16> {
        let random = &mut self.random;
        let mut words = random.pick(&self.memories).clone();
        match random.below(10) {
            0..=3 => {}
            4..=7 => (0..random.between(1, 2)).for_each(|_| change(random, &mut words)),
            8 => {
                let high = *random.pick(&[2, 13, 2_048, 65_536]);
                words.iter_mut().for_each(|word| *word = random.below(high) as u16);
                words[0] %= 2_048;
            }
            _ => {
                let length = *random.pick(&[0, 1, FAILURES, WORDS - 1, WORDS + 1, 2 * WORDS]);
                words.resize(length, 0);
            }
        }
        words
    }

    fn well_formed(&mut self) -> Found {
        let words = self.words().into_boxed_slice();
        let want = if is_well_formed(&words) { 0 } else { WRONG_MEMORY };
        let answer = library::well_formed(&words);
        (format!("well_formed: {answer:2}"), (answer != want).then(|| wrong("well_formed", &[], &words)))
    }

    fn reset(&mut self) -> Found {
        let words = self.words();
        let mut lent = Guarded::of(&words, 0x5A5A);
        let answer = library::reset(lent.lent());
        let (want, left) = if words.len() == WORDS { (0, vec![0; WORDS]) } else { (WRONG_MEMORY, words.clone()) };
        let is_right = answer == want && lent.seen() == left && lent.is_intact();
        (format!("reset: {answer:2}"), (!is_right).then(|| wrong("reset", &[], &words)))
    }

    fn settings(&mut self) -> (Settings, usize) {
        let random = &mut self.random;
        let most = MAX_BUDGET as usize;
        let limit = match random.below(20) {
            0 => *random.pick(&[usize::from(MAX_DEPTH) + 1, 255, 256 + 8, usize::MAX, 1 << 32]),
            _ => random.between(0, usize::from(MAX_DEPTH)),
        };
        let budget = match random.below(20) {
            0 => *random.pick(&[0, most + 1, usize::MAX, 1 << 32, (1 << 32) + 5]),
            1 => most,
            _ => random.between(1, 300),
        };
        let room = match random.below(12) {
            0 => *random.pick(&[0, 1, budget.min(most).saturating_sub(1)]),
            1 => budget.min(most) + random.below(100),
            _ => budget.min(most),
        };
        (Settings { limit, budget, cache: !random.once_in(3) }, room)
    }

    fn prove(&mut self) -> Found {
        let from = self.random.below(8);
        let s = if from == 0 { self.bytes() } else { self.question() };
        let words = self.words();
        let (settings, work_length) = self.settings();
        let room = *self.random.pick(&[0, 30, 100, 100, 3_000, 65_538, 65_539]);
        let (mut mem, mut out) = (Guarded::of(&words, 0x5A5A), Guarded::filled(0xA5, room, 0x5A));
        let mut work = Guarded::filled(0xA5A5, work_length, 0x5A5A);
        let proved = library::prove(&s, settings, mem.lent(), work.lent(), out.lent());
        let fault = Call { s: &s, words: &words, settings, proved }.fault(&mem, &work, &out);
        let kind = format!("prove: {:2}", proved.answer);
        let around = format!("{settings:?}, work {work_length}, room {room}, ");
        (kind, fault.map(|what| wrong(&format!("{around}{proved:?}: {what}"), &s, &words)))
    }

    /// `shorten` or `expand` of a found tree, damaged or not, or of any bytes, in any memory.
    fn short(&mut self) -> Found {
        let shorting = *self.random.pick(&[Shorting::Shorten, Shorting::Expand]);
        let (question, message) = self.question_and_message(shorting);
        let asked = Asked { shorting, question: &question, message: &message };
        let words = self.words();
        let room = *self.random.pick(&[0, 12, 30, 100, 3_000, AMPLE, AMPLE + 1]);
        if !is_well_formed(&words) {
            return (format!("{shorting:?}: {WRONG_MEMORY}"), asked.in_wrong_memory(&words, room));
        }
        match asked.of_both(&mut Lent::of(&words), |_| room) {
            Ok(agreed) => (format!("{shorting:?}: {:2}", agreed.answer), None),
            Err(difference) => (format!("{shorting:?}"), Some(difference)),
        }
    }

    fn question_and_message(&mut self, shorting: Shorting) -> (Box<[u8]>, Box<[u8]>) {
        let Shortened { question, tree, short } = self.random.pick(&self.found);
        let message = if shorting == Shorting::Shorten { tree } else { short };
        let (question, message) = (question.clone().into_boxed_slice(), message.clone().into_boxed_slice());
        match self.random.below(6) {
            0 => (question, message),
            1 | 2 => (question, bytes::damaged(&mut self.random, &message).into_boxed_slice()),
            3 => (bytes::damaged(&mut self.random, &question).into_boxed_slice(), message),
            4 => (question, self.bytes()),
            _ => (self.bytes(), self.bytes()),
        }
    }

    fn question(&mut self) -> Box<[u8]> {
        let message = self.random.pick(&self.questions).clone();
        let bytes = match self.random.below(4) {
            0 | 1 => message,
            _ => bytes::damaged(&mut self.random, &message),
        };
        bytes.into_boxed_slice()
    }
}

fn wrong(what: &str, s: &[u8], words: &[u16]) -> Difference {
    let held: Vec<u16> = words.iter().copied().take(64).collect();
    Difference { what: what.into(), input: s.to_vec(), around: format!("{} words: {held:?}..\n", words.len()) }
}

/// One word changed, mostly one that says something.
fn change(random: &mut Random, words: &mut [u16]) {
    let formulas = usize::from(words[0]).min(MAX_FORMULAS);
    let failures = usize::from(words[FAILURES]).min(MAX_FAILURES - 1);
    let place = match random.below(7) {
        0 => *random.pick(&[0, FAILURES]),
        1 => random.below(2 + 5 * formulas),
        2 => ORDER + random.below(1 + formulas),
        3 | 4 => FAILURES + random.below(2 + 32 * failures),
        5 => FAILURE_ORDER + random.below(1 + failures),
        _ => random.below(WORDS),
    };
    words[place] = match random.below(5) {
        0 => words[place].wrapping_add(1),
        1 => words[place].wrapping_sub(1),
        2 => words[place] ^ 1,
        3 => words[random.below(WORDS)],
        _ => random.below(65_536) as u16,
    };
}

/// A call of `prove` that has ended.
struct Call<'a> {
    s: &'a [u8],
    words: &'a [u16],
    settings: Settings,
    proved: library::Proved,
}

impl Call<'_> {
    /// The refusal at entry or in reading, in document 01's order; 7 is not among them.
    fn refusal(&self, work_length: usize) -> Option<u8> {
        let Settings { limit, budget, .. } = self.settings;
        let fits = limit <= usize::from(MAX_DEPTH) && budget > 0 && budget <= MAX_BUDGET as usize;
        if !fits || work_length < budget {
            return Some(WRONG_SETTING);
        }
        if !is_well_formed(self.words) {
            return Some(WRONG_MEMORY);
        }
        Question::read(self.s).err()
    }

    /// What is wrong with what the call left.
    fn fault(&self, mem: &Guarded<u16>, work: &Guarded<u64>, out: &Guarded<u8>) -> Option<&'static str> {
        let library::Proved { answer, counters, written } = self.proved;
        if !(mem.is_intact() && work.is_intact() && out.is_intact()) {
            return Some("written beside a lent slice");
        }
        let refusal = self.refusal(work.seen().len());
        if refusal.map_or(answer > 1 && !(6..=10).contains(&answer), |refusal| refusal != answer) {
            return Some("the answer");
        }
        let is_unsearched = counters.explored == 0;
        if is_unsearched != (refusal.is_some() || answer == 7 && is_unsearched) {
            return Some("the counters");
        }
        if is_unsearched && (mem.seen() != self.words || work.seen().iter().any(|&word| word != 0xA5A5)) {
            return Some("memory or work words of a question that was refused");
        }
        if (answer == 0) != (written > 0) || written > out.seen().len() {
            return Some("the length written");
        }
        if out.seen()[written..].iter().any(|&byte| byte != 0xA5) {
            return Some("the output past the tree");
        }
        if answer == 0 && tree::read(&out.seen()[..written]).is_err() {
            return Some("the tree cannot be read");
        }
        let past = work.seen().len().min(self.settings.budget);
        if work.seen()[past..].iter().any(|&word| word != 0xA5A5) {
            return Some("work words past the budget");
        }
        if is_unsearched || is_well_formed(mem.seen()) && extends(self.words, mem.seen()) {
            return None;
        }
        Some("the memory does not extend the one lent")
    }
}
