//! The library against the unchanged Rust: `compare [QUESTIONS] [SEED]`. Prints counts by kind and how many differ; with a difference it prints the smallest and ends with status 1.

mod shorts;

use oracle::answer::MAX_DEPTH;
use oracle::make::fragment::{formula, names, FRAGMENTS};
use oracle::make::trees;
use oracle::random::Random;
use oracle::{formula, tree};
use scale::session::{smallest, Ask, Compared, Run};
use scale::tally::Tally;
use scale::{bytes, calls, draw};
use shorts::Shorts;
use std::collections::HashSet;
use std::process::exit;
use std::time::Instant;

/// One formula and a tree for so many questions.
const QUESTIONS_A_FORMULA: usize = 4;
const QUESTIONS_A_TREE: usize = 8;
/// How many found trees are kept for the verifier.
const KEPT: usize = 2_000;
const LONGEST: usize = 3_000;

fn number(place: usize, usual: usize) -> usize {
    std::env::args().nth(place).map_or(usual, |text| text.parse().expect("usage: compare [QUESTIONS] [SEED]"))
}

/// All that is compared in one run of the program.
struct Comparison {
    tally: Tally,
    random: Random,
    run: Run,
    shorts: Shorts,
    found: Vec<Vec<u8>>,
    seen: HashSet<Vec<u8>>,
    limits: HashSet<u8>,
    questions: usize,
}

fn main() {
    let (questions, seed) = (number(1, 1_000_000), number(2, 1) as u64);
    let started = Instant::now();
    let mut all = Comparison {
        tally: Tally::default(),
        random: Random::new(seed),
        run: Run::fresh(),
        shorts: Shorts::new(seed),
        found: vec![],
        seen: HashSet::new(),
        limits: HashSet::new(),
        questions: 0,
    };
    draw::fixed().iter().for_each(|asks| all.session("fixed", asks));
    while all.questions < questions {
        let kind = draw::kind(&mut all.random);
        let asks = (kind.draw)(&mut all.random);
        all.session(kind.name, &asks);
    }
    all.formulas(questions / QUESTIONS_A_FORMULA);
    all.trees(questions / QUESTIONS_A_TREE, seed);
    let limits = (0..=MAX_DEPTH).filter(|limit| all.limits.contains(limit)).count();
    all.tally.note("different depth limits from 0 to 64", limits as u64);
    all.tally.note("different found trees", all.shorts.distinct() as u64);
    println!("questions: {questions}, seed: {seed}, seconds: {}", started.elapsed().as_secs());
    exit(i32::from(!all.tally.print()));
}

impl Comparison {
    /// Questions that share a memory, to the first difference, and each of them turned one-sided.
    fn session(&mut self, kind: &str, asks: &[Ask]) {
        if !self.run.reset() {
            self.run = Run::fresh();
            self.tally.count("reset differs", Some(smallest(&[])));
        }
        self.tally.note("sessions", 1);
        for (place, ask) in asks.iter().enumerate() {
            self.questions += 1;
            let Ok(seen) = self.run.ask(ask) else {
                return self.tally.count(&format!("prove, {kind}"), Some(smallest(&asks[..=place])));
            };
            let by = if seen.by_rust { "by the Rust and the model" } else { "by the model alone" };
            self.tally.count(&format!("prove, {kind}, {by}"), None);
            self.note(ask, &seen, by);
            let turned = calls::one_sided(&mut self.random, &ask.message);
            self.tally.count("to_one_sided", turned);
            self.shorts.asked(&mut self.random, &ask.message);
            self.keep(&seen.tree);
            if !self.shorten(&ask.message, &seen.tree) {
                return;
            }
        }
    }

    /// The part over short trees, where a tree was found. Says whether the session can go on.
    fn shorten(&mut self, question: &[u8], tree: &[u8]) -> bool {
        let lent = &mut self.run.lent;
        tree.is_empty() || self.shorts.found(&mut self.tally, &mut self.random, lent, question, tree)
    }

    fn note(&mut self, ask: &Ask, seen: &Compared, by: &str) {
        let tally = &mut self.tally;
        let state = if seen.counters.explored == 0 { "before the search" } else { "of the search" };
        tally.note(&format!("answer {:2} {state}, {by}", seen.answer), 1);
        tally.note(if ask.cache { "cache on" } else { "cache off" }, 1);
        tally.note(if ask.message.get(3) == Some(&2) { "kind 2" } else { "kind 1" }, 1);
        tally.note("visits", u64::from(seen.counters.explored));
        tally.note("hits", u64::from(seen.counters.hits));
        tally.note("failures recorded", seen.recorded as u64);
        tally.note("bytes of trees", seen.tree.len() as u64);
        tally.note("depth 65 reached", u64::from(seen.counters.reached > MAX_DEPTH));
        self.limits.insert(ask.limit);
    }

    /// Keeps a found tree for the verifier.
    fn keep(&mut self, tree: &[u8]) {
        if self.found.len() < KEPT && !tree.is_empty() && tree.len() < LONGEST && self.seen.insert(tree.to_vec()) {
            self.found.push(tree.to_vec());
        }
    }

    fn formulas(&mut self, count: usize) {
        for drawn in 0..count {
            let fragment = &FRAGMENTS[drawn % FRAGMENTS.len()];
            let names = names(&mut self.random);
            let most = *self.random.pick(&[3, 10, 40, 120]);
            let nodes = self.random.between(1, most);
            let mut s = formula::bytes(&formula(&mut self.random, fragment, &names, nodes));
            let is_damaged = self.random.once_in(4);
            if is_damaged {
                s = bytes::damaged(&mut self.random, &s);
            }
            let kind = if is_damaged { "formulas, damaged" } else { "formulas" };
            self.tally.count(kind, calls::formula(&mut self.random, &s));
        }
    }

    /// The oracle's lists of trees for one seed after another, over the trees found here.
    fn trees(&mut self, count: usize, seed: u64) {
        let mut done = 0;
        for next in seed.. {
            for (name, proofs) in trees::groups(next, &self.found) {
                for proof in proofs {
                    let message = tree::message(&proof).expect("a tree fits its length field");
                    self.tally.count(&format!("trees, {name}"), calls::tree(&message));
                    let damaged = bytes::damaged(&mut self.random, &message);
                    self.tally.count("trees, damaged bytes", calls::tree(&damaged));
                    done += 2;
                }
            }
            if done >= count {
                return;
            }
        }
    }
}
