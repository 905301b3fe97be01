//! Short trees of steps drawn at random: each one that the search's rules can take, to a leaf or to where they can take none. What comes of them is mostly 15
//! far from the root, and 6 or 10 where the question is made for it.

use lolli_core::{Formula, Sequent};
use oracle::answer::{MAX_SEQUENT, SHORT_VERSION};
use oracle::cursor::put_counted;
use oracle::formula::{atom, WITH};
use oracle::make::families::balanced;
use oracle::make::fragment::{formula, mixed};
use oracle::question::Question;
use oracle::random::Random;
use oracle::short::message::write;
use oracle::short::steps::{first_decomposable, premises, spelled, Step};
use oracle::short::to_one_sided;
use oracle::tree::*;

const DECOMPOSING: [u8; 5] = [BOTTOM_INTRO, PAR_INTRO, TOP_INTRO, WITH_INTRO, WHY_NOT_INTRO];
const CHOOSING: [u8; 9] = [
    AXIOM,
    ONE_INTRO,
    TENSOR_INTRO,
    PLUS_INTRO_LEFT,
    PLUS_INTRO_RIGHT,
    OF_COURSE_INTRO,
    WEAKENING,
    CONTRACTION,
    DERELICTION,
];
/// How many nodes are drawn before all others are leaves.
const NODES: usize = 150;
/// How often a step is drawn at a node before it is given up.
const TRIES: usize = 40;

struct Walk<'a> {
    random: &'a mut Random,
    nodes: usize,
    body: Vec<u8>,
}

/// The message of a walk from the question; of one leaf where that is refused.
pub fn drawn(random: &mut Random, question: &[u8]) -> Vec<u8> {
    let mut walk = Walk { random, nodes: NODES, body: vec![] };
    match Question::read(question) {
        Ok(question) => walk.node(&to_one_sided(question)),
        Err(_) => walk.leaf(),
    }
    let mut message = vec![SHORT_VERSION];
    put_counted(&mut message, &walk.body);
    message
}

impl Walk<'_> {
    fn leaf(&mut self) {
        self.body.extend([*self.random.pick(&[AXIOM, ONE_INTRO, TOP_INTRO]), 0]);
    }

    fn node(&mut self, sequent: &Sequent) {
        let conclusion = spelled(sequent).0;
        let step = (0..TRIES).find_map(|_| {
            let step = self.step(&conclusion);
            Some((step, premises(&conclusion, step)?))
        });
        let Some((step, premises)) = step.filter(|_| self.nodes > 0) else { return self.leaf() };
        self.nodes -= 1;
        write(step, &mut self.body);
        for premise in premises {
            self.node(&premise);
        }
    }

    /// A step at the first decomposable formula, or anywhere where there is none.
    fn step(&mut self, conclusion: &Sequent) -> Step {
        if let Some(first) = first_decomposable(conclusion) {
            return Step { rule: *self.random.pick(&DECOMPOSING), place: first as u8, mask: 0 };
        }
        let rule = *self.random.pick(&CHOOSING);
        let most = conclusion.linear.len().max(conclusion.unrestricted.len()).max(1);
        let place = self.random.below(most) as u8;
        let others = conclusion.linear.len().saturating_sub(1);
        let mask = if rule == TENSOR_INTRO { self.random.below(1 << others) as u32 } else { 0 };
        Step { rule, place, mask }
    }
}

/// 29 to 31 formulas, some of which a step makes more of.
pub fn wide(random: &mut Random) -> Vec<u8> {
    let count = random.between(29, MAX_SEQUENT);
    let mut zone: Vec<Formula> = (0..count).map(|n| atom(n as u16 % 5)).collect();
    for _ in 0..random.between(1, 4) {
        let (place, nodes) = (random.below(zone.len()), random.between(2, 5));
        zone[place] = formula(random, mixed(), &[1, 2], nodes);
    }
    let unrestricted = zone.split_off(zone.len() - random.below(5));
    Question::one_sided(zone, unrestricted).message().expect("it is short")
}

/// A nest of With over ⊤ whose tree has 30,000 to 150,000 bytes, and its one walk.
pub fn long(random: &mut Random) -> (Vec<u8>, Vec<u8>) {
    let levels = random.between(10, 11) as u32;
    let beside = random.below(3);
    let mut zone = vec![Formula::One; beside];
    zone.push(balanced(WITH, levels, &|_| Formula::Top));
    let nest = |levels: u32| -> Vec<u8> {
        let place = beside as u8;
        (0..levels).fold(vec![TOP_INTRO, place], |above, _| [&[WITH_INTRO, place], &above[..], &above].concat())
    };
    let mut message = vec![SHORT_VERSION];
    put_counted(&mut message, &nest(levels));
    (Question::one_sided(zone, vec![]).message().expect("it is short"), message)
}
