//! The list of sessions.

use super::families::{self, RUNGS};
use super::fragment::{self, all, Fragment, FRAGMENTS};
use super::sequents::{drawn, grown, large, question, variant, Drawn};
use super::{settled, Asks};
use crate::ask::Asker;
use crate::filter::{Caps, Filter};
use crate::formula::*;
use crate::question::Question;
use crate::random::Random;
use crate::records::Session;
use lolli_core::Formula;
use std::slice::from_ref;

const SMALL: Caps = Caps { visits: 300, beside: 10, splits: 1 << 13, bytes: 1_500 };
const LARGE: Caps = Caps { visits: 4_000, beside: 13, splits: 1 << 17, bytes: 12_000 };

/// What came of the making.
#[derive(Default)]
pub struct Made {
    pub groups: Vec<(String, Vec<Session>)>,
    pub compared: usize,
    pub differing: usize,
    pub kept_out: usize,
}

/// One prover and the model beside it.
struct Run {
    asker: Asker,
    filter: Filter,
    session: Session,
}

impl Run {
    fn new(cache: bool) -> Self {
        Run { asker: Asker::new(cache), filter: Filter::new(cache), session: Session { cache, asked: vec![] } }
    }
}

impl Made {
    /// Asks the Rust, unless the model meets a limit. Says whether it was asked.
    fn offer(&mut self, run: &mut Run, limit: u8, question: &Question, caps: Caps) -> bool {
        let message = question.message();
        let Some(expected) = message.and_then(|message| run.filter.ask(limit, &message, caps)) else {
            self.kept_out += 1;
            return false;
        };
        let asked = run.asker.ask(limit, question);
        self.compared += 1;
        if asked != expected {
            self.differing += 1;
            eprintln!("the model differs from the Rust:\n{asked:?}\n{expected:?}");
        }
        run.session.asked.push(asked);
        true
    }

    /// Sessions whose questions all have to be within the limits.
    fn fixed(&mut self, name: &str, sessions: Vec<Asks>) {
        let mut out = Vec::new();
        for (cache, questions) in sessions {
            let mut run = Run::new(cache);
            for (limit, question) in questions {
                assert!(self.offer(&mut run, limit, &question, Caps::LIMITS), "{name}: meets a limit: {question:?}");
            }
            out.push(run.session);
        }
        self.groups.push((name.to_string(), out));
    }

    /// Sessions whose questions are left out where they meet a limit.
    fn loose(&mut self, name: &str, caps: Caps, sessions: Vec<Asks>) {
        let mut out = Vec::new();
        for (cache, questions) in sessions {
            let mut run = Run::new(cache);
            for (limit, question) in questions {
                self.offer(&mut run, limit, &question, caps);
            }
            out.push(run.session);
        }
        out.retain(|session| !session.asked.is_empty());
        self.groups.push((name.to_string(), out));
    }

    /// One to eight questions that share a memory: new ones, and variants of those before.
    fn random_session(&mut self, random: &mut Random, fragment: &Fragment) -> Session {
        let mut run = Run::new(!random.once_in(4));
        let names = fragment::names(random);
        let wanted = random.between(1, 8);
        let caps = if random.once_in(12) { LARGE } else { SMALL };
        let mut before: Vec<Drawn> = Vec::new();
        while before.len() < wanted {
            let sequent = next_sequent(random, fragment, &names, &before);
            let question = question(random, &sequent);
            if self.offer(&mut run, depth_limit(random), &question, caps) {
                before.push(sequent);
            }
        }
        run.session
    }
}

fn next_sequent(random: &mut Random, fragment: &Fragment, names: &[u16], before: &[Drawn]) -> Drawn {
    match random.below(10) {
        0..=3 if !before.is_empty() => {
            let earlier = random.pick(before).clone();
            variant(random, &earlier)
        }
        0..=4 => drawn(random, fragment, names),
        5 => large(random, fragment, names),
        _ => {
            let steps = random.between(2, 14);
            grown(random, fragment, names, steps)
        }
    }
}

/// Many small ones: there the depth no is met.
fn depth_limit(random: &mut Random) -> u8 {
    let (low, high) = *random.pick(&[(0, 2), (1, 5), (3, 10), (8, 32), (32, 64)]);
    random.between(low, high) as u8
}

pub fn make(seed: u64) -> Made {
    let mut made = Made::default();
    let mut random = Random::new(seed);
    made.fixed("settled runs", settled::runs());
    made.fixed("where the Rust surprises", settled::surprises());
    made.fixed("edges of the limits", families::edges());
    made.fixed("small, all of up to 3 signs and names", small());
    made.fixed("smaller, all of up to 2, with rising limits", smaller());
    made.fixed("weakening after a kept failure", families::weakened());
    made.loose("families", LARGE, family_sessions(&mut random));
    for fragment in &FRAGMENTS {
        let sessions = (0..200).map(|_| made.random_session(&mut random, fragment)).collect();
        made.groups.push((format!("random, {}", fragment.name), sessions));
    }
    made
}

/// Every question of both kinds over one name.
fn small() -> Vec<Asks> {
    all_questions(&[1], 3).into_iter().map(|question| (true, vec![(32, question)])).collect()
}

/// Every question of both kinds over two names, asked again and again in one memory, cache on and off.
fn smaller() -> Vec<Asks> {
    let rises = |question: Question| [true, false].map(|cache| (cache, rising(&question, &[0, 1, 2, 32])));
    all_questions(&[1, 2], 2).into_iter().flat_map(rises).collect()
}

/// Every list of formulas of so many signs and names together, cut into two zones at each place.
fn all_questions(names: &[u16], most: usize) -> Vec<Question> {
    let sizes = all(names, most);
    let mut lists: Vec<(usize, Vec<Formula>)> = vec![(0, vec![])];
    let mut next = 0;
    while next < lists.len() {
        let (used, list) = lists[next].clone();
        for (size, formulas) in sizes.iter().enumerate().take(most - used + 1) {
            lists.extend(formulas.iter().map(|f| (used + size, [&list[..], from_ref(f)].concat())));
        }
        next += 1;
    }
    lists.iter().flat_map(|(_, list)| cuts(list)).collect()
}

fn cuts(list: &[Formula]) -> Vec<Question> {
    let cut = |place: usize| {
        let (first, second) = (list[..place].to_vec(), list[place..].to_vec());
        [Question::one_sided(first.clone(), second.clone()), Question::two_sided(first, second)]
    };
    (0..=list.len()).flat_map(cut).collect()
}

/// Each family with rising limits in one memory, cache on and off.
fn family_sessions(random: &mut Random) -> Vec<Asks> {
    let mut questions: Vec<Question> = Vec::new();
    questions.extend((1..=6).map(families::chain));
    questions.extend((1..=7).map(families::same_name));
    questions.extend((1..=5).map(|n| families::unrestricted(n, Formula::One)));
    questions.extend((1..=4).map(|n| families::unrestricted(n, Formula::tensor(atom(1), atom(n)))));
    let leaf = |n: u16| if n.is_multiple_of(3) { Formula::Top } else { Formula::One };
    questions.extend((1..=6).map(|n| Question::one_sided(vec![families::balanced(WITH, n, &leaf)], vec![])));
    questions
        .extend((1..=5).map(|n| Question::one_sided(vec![families::balanced(PLUS, n, &atom), neg_atom(7)], vec![])));
    questions.extend(families::contracted());
    questions.extend((1..=4).flat_map(families::in_a_row));
    for fragment in &FRAGMENTS {
        questions.extend((3..10).map(|nodes| families::identity(&fragment::formula(random, fragment, &[1, 2], nodes))));
    }
    let sessions =
        questions.into_iter().flat_map(|q| [(true, rising(&q, &[1, 3, 6, 12, 32])), (false, rising(&q, &[2, 5, 64]))]);
    sessions.chain(ladders(random)).collect()
}

fn rising(question: &Question, limits: &[u8]) -> Vec<(u8, Question)> {
    limits.iter().map(|&limit| (limit, question.clone())).collect()
}

/// High formulas that a search goes down to the end, with limits around the depth this takes.
fn ladders(random: &mut Random) -> Vec<Asks> {
    let mut out = Vec::new();
    for height in [8, 16, 33, 48, 63, 64] {
        for _ in 0..4 {
            let rungs: Vec<_> = (0..3).map(|_| *random.pick(&RUNGS)).collect();
            let question = Question::one_sided(vec![families::ladder(&rungs, height)], vec![]);
            let deep = random.between(height.min(62) - 2, 64) as u8;
            out.push((random.once_in(2), rising(&question, &[height as u8 - 2, deep, 64])));
        }
    }
    out
}
