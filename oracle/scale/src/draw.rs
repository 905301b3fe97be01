//! Sessions drawn at random: every fragment, and the neighbourhood of every limit.

use crate::bytes;
use crate::session::Ask;
use lolli_core::Formula;
use oracle::answer::{MAX_BUDGET, MAX_DEPTH};
use oracle::formula::{atom, height, PLUS, WITH};
use oracle::make::families::{balanced, contracted, edges, in_a_row, ladder, weakened, RUNGS};
use oracle::make::fragment::{self, formula, mixed, Fragment, FRAGMENTS};
use oracle::make::sequents::{drawn, grown, large, question, variant, Drawn};
use oracle::make::{settled, Asks};
use oracle::question::Question;
use oracle::random::Random;

/// A kind of session: its name, how often it is drawn, and how.
pub struct Kind {
    pub name: &'static str,
    pub weight: usize,
    pub draw: fn(&mut Random) -> Vec<Ask>,
}

pub const KINDS: [Kind; 13] = [
    Kind { name: "multiplicative", weight: 100, draw: |random| of_fragment(random, &FRAGMENTS[0]) },
    Kind { name: "additive", weight: 100, draw: |random| of_fragment(random, &FRAGMENTS[1]) },
    Kind { name: "exponential", weight: 100, draw: |random| of_fragment(random, &FRAGMENTS[2]) },
    Kind { name: "units", weight: 100, draw: |random| of_fragment(random, &FRAGMENTS[3]) },
    Kind { name: "implications", weight: 100, draw: |random| of_fragment(random, &FRAGMENTS[4]) },
    Kind { name: "mixed", weight: 100, draw: |random| of_fragment(random, &FRAGMENTS[5]) },
    Kind { name: "around 31 formulas", weight: 40, draw: around_widest },
    Kind { name: "around 2,048 formulas held", weight: 8, draw: around_full },
    Kind { name: "around 1,000 failures", weight: 8, draw: around_failures },
    Kind { name: "around height 64", weight: 20, draw: around_highest },
    Kind { name: "around depth limits", weight: 20, draw: around_depth },
    Kind { name: "around 65,535 bytes of tree", weight: 1, draw: around_longest },
    Kind { name: "contraction", weight: 20, draw: with_contraction },
];

/// A kind drawn by weight.
pub fn kind(random: &mut Random) -> &'static Kind {
    let mut left = random.below(KINDS.iter().map(|kind| kind.weight).sum());
    for kind in &KINDS {
        if left < kind.weight {
            return kind;
        }
        left -= kind.weight;
    }
    unreachable!("the weights are the sum")
}

/// The oracle's fixed sessions: settled runs, surprises, edges of the limits, Weakening.
pub fn fixed() -> Vec<Vec<Ask>> {
    let all: Vec<Asks> = [settled::runs(), settled::surprises(), edges(), weakened()].concat();
    let ask = |cache: bool, (limit, question): (u8, Question)| Ask {
        message: question.message().expect("a fixed question fits its length field"),
        limit,
        budget: MAX_BUDGET,
        cache,
        spare: 0,
    };
    all.into_iter().map(|(cache, asks)| asks.into_iter().map(|asked| ask(cache, asked)).collect()).collect()
}

/// A question with settings drawn for it. Damaged in its bytes once in a while.
fn asked(random: &mut Random, question: &Question, cache: bool) -> Option<Ask> {
    let mut message = question.message()?;
    if random.once_in(40) {
        message = bytes::damaged(random, &message);
    }
    let spare = match random.below(16) {
        0 => -1,
        1 => -(random.between(2, 70_000) as isize),
        2..=5 => 0,
        _ => random.between(1, 60) as isize,
    };
    // The cache may change from question to question in one memory.
    let cache = cache != random.once_in(16);
    Some(Ask { message, limit: limit(random), budget: budget(random), cache, spare })
}

/// Every limit, the small ones more often: there the depth no is met.
fn limit(random: &mut Random) -> u8 {
    let (low, high) = *random.pick(&[(0, 2), (1, 5), (3, 10), (8, 32), (32, 64)]);
    random.between(low, high) as u8 + if random.once_in(500) { MAX_DEPTH } else { 0 }
}

fn budget(random: &mut Random) -> u32 {
    match random.below(24) {
        0 => random.between(1, 12) as u32,
        1 => random.between(10, 100) as u32,
        2 if random.once_in(40) => *random.pick(&[0, MAX_BUDGET + 1, u32::MAX >> 8]),
        2 if random.once_in(4) => MAX_BUDGET,
        2 => 2_000,
        _ => 1_000,
    }
}

fn sequent(random: &mut Random, fragment: &Fragment, names: &[u16], before: &[Drawn]) -> Drawn {
    match random.below(10) {
        0..=3 if !before.is_empty() => {
            let earlier = random.pick(before).clone();
            variant(random, &earlier)
        }
        0..=4 => drawn(random, fragment, names),
        5 => large(random, fragment, names),
        _ => {
            let steps = random.between(2, 14);
            grown(random, fragment, names, steps)
        }
    }
}

/// New sequents, and variants of those before.
fn some(random: &mut Random, fragment: &Fragment, count: usize, cache: bool) -> Vec<Ask> {
    let names = fragment::names(random);
    let mut before: Vec<Drawn> = Vec::new();
    let mut asks = Vec::new();
    for _ in 0..count {
        let sequent = sequent(random, fragment, &names, &before);
        let question = question(random, &sequent);
        asks.extend(asked(random, &question, cache));
        before.push(sequent);
    }
    asks
}

fn of_fragment(random: &mut Random, fragment: &Fragment) -> Vec<Ask> {
    let (count, cache) = (random.between(1, 16), !random.once_in(4));
    some(random, fragment, count, cache)
}

/// 24 to 33 formulas, most of them names, some of which a step makes more of.
fn around_widest(random: &mut Random) -> Vec<Ask> {
    let cache = random.once_in(2);
    let mut asks = Vec::new();
    for _ in 0..random.between(1, 6) {
        let mut zone: Vec<Formula> = (0..random.between(24, 33)).map(|n| atom(n as u16 % 7)).collect();
        for _ in 0..random.below(5) {
            let (place, nodes) = (random.below(zone.len()), random.between(2, 5));
            zone[place] = formula(random, mixed(), &[1, 2], nodes);
        }
        let unrestricted = zone.split_off(zone.len() - random.below(4));
        let question = match random.below(3) {
            0 => Question::two_sided(unrestricted, zone),
            _ => Question::one_sided(zone, unrestricted),
        };
        asks.extend(asked(random, &question, cache));
    }
    asks
}

/// Up to 2,047 formulas beside a ⊤, then questions that need a few more.
fn around_full(random: &mut Random) -> Vec<Ask> {
    let mut zone = vec![Formula::Top];
    for (first, levels) in [(1000, 9), (2000, 8), (3000, 7), (4000, 6), (5000, 5), (6000, 4)] {
        zone.push(balanced(WITH, levels, &|n| atom(first + n)));
    }
    zone.extend((0..random.between(12, 24)).map(|n| atom(7000 + n as u16)));
    let more = (0..random.below(13)).map(|n| atom(8000 + n as u16));
    let mut asks = vec![filling(zone), filling(more.chain([Formula::Top]).collect())];
    let fragment = *random.pick(&[2, 4, 4, 5]);
    asks.extend(some(random, &FRAGMENTS[fragment], 24, true));
    asks
}

/// 750 to 987 failures from choices that all fail, then questions that leave a few more.
fn around_failures(random: &mut Random) -> Vec<Ask> {
    let mut asks = Vec::new();
    for (first, levels) in [(1000, 8), (2000, 7), (3000, 6), (4000, 5), (5000, 4)] {
        if levels > 6 || !random.once_in(4) {
            asks.push(filling(vec![balanced(PLUS, levels, &|n| atom(first + n))]));
        }
    }
    let fragment = random.pick(&FRAGMENTS);
    asks.extend(some(random, fragment, 24, true));
    asks
}

fn filling(zone: Vec<Formula>) -> Ask {
    let message = Question::one_sided(zone, vec![]).message().expect("it fits its length field");
    Ask { message, limit: 64, budget: MAX_BUDGET, cache: true, spare: 0 }
}

/// Sequents of the mixed fragment with one formula of height 61 to 67.
fn around_highest(random: &mut Random) -> Vec<Ask> {
    let mut asks = Vec::new();
    for _ in 0..random.between(1, 6) {
        let mut sequent = drawn(random, mixed(), &[1, 2]);
        let above = *random.pick(&[Formula::of_course, Formula::why_not]);
        let place = random.below(sequent.linear.len());
        let wanted = random.between(61, 67);
        while height(&sequent.linear[place]) < wanted {
            sequent.linear[place] = above(sequent.linear[place].clone());
        }
        let question = question(random, &sequent);
        asks.extend(asked(random, &question, true));
    }
    asks
}

/// High formulas that a search goes down to the end, some after a few ⊥, with limits around the depth this takes.
fn around_depth(random: &mut Random) -> Vec<Ask> {
    let lowest = *random.pick(&[2, 2, 60]);
    let height = random.between(lowest, 64);
    let rungs: Vec<_> = (0..random.between(1, 4)).map(|_| *random.pick(&RUNGS)).collect();
    let mut zone = vec![Formula::Bottom; random.below(5)];
    zone.push(ladder(&rungs, height));
    let question = Question::one_sided(zone, vec![]);
    let cache = random.once_in(2);
    let mut asks: Vec<Ask> = (0..random.between(1, 5)).filter_map(|_| asked(random, &question, cache)).collect();
    asks.iter_mut().for_each(|ask| ask.limit = random.between(height.saturating_sub(3), 64) as u8);
    asks
}

/// Trees of 20,000 to 80,000 bytes.
fn around_longest(random: &mut Random) -> Vec<Ask> {
    let mut zone = vec![Formula::Bottom; random.below(6)];
    let levels = random.between(9, 11) as u32;
    zone.push(balanced(WITH, levels, &|_| Formula::Top));
    let question = Question::one_sided(zone, vec![Formula::Zero; random.below(3)]);
    let mut asks: Vec<Ask> = asked(random, &question, true).into_iter().collect();
    asks.iter_mut().for_each(|ask| (ask.budget, ask.limit) = (MAX_BUDGET, 64));
    asks
}

fn with_contraction(random: &mut Random) -> Vec<Ask> {
    let steps = random.between(1, 4) as u16;
    let mut questions = [contracted(), in_a_row(steps)].concat();
    random.shuffle(&mut questions);
    let cache = random.once_in(2);
    questions.iter().take(random.between(1, 8)).filter_map(|question| asked(random, question, cache)).collect()
}
