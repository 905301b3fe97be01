//! Sequents drawn at random, sequents grown downwards from leaves (so that many have a tree), and variants of a sequent.

use super::fragment::{formula, leaf, Fragment};
use crate::formula::*;
use crate::question::Question;
use crate::random::Random;
use lolli_core::Formula;

#[derive(Clone, Debug, Default)]
pub struct Drawn {
    pub linear: Vec<Formula>,
    pub unrestricted: Vec<Formula>,
}

/// One to four formulas of up to seven signs and names, and sometimes unrestricted ones.
pub fn drawn(random: &mut Random, fragment: &Fragment, names: &[u16]) -> Drawn {
    let some = |random: &mut Random, count: usize| -> Vec<Formula> {
        let draw = |_| {
            let nodes = random.between(1, 7);
            formula(random, fragment, names, nodes)
        };
        (0..count).map(draw).collect()
    };
    let count = random.between(1, 4);
    let linear = some(random, count);
    let zone = if fragment.has(WHY_NOT) { random.below(3) } else { usize::from(random.once_in(12)) };
    Drawn { linear, unrestricted: some(random, zone) }
}

/// One or two formulas of up to sixty signs and names, or many small ones side by side.
pub fn large(random: &mut Random, fragment: &Fragment, names: &[u16]) -> Drawn {
    let (count, nodes) = if random.once_in(2) { (random.between(1, 2), 60) } else { (random.between(5, 12), 3) };
    let draw = |_| {
        let nodes = random.between(1, nodes);
        formula(random, fragment, names, nodes)
    };
    Drawn { linear: (0..count).map(draw).collect(), unrestricted: vec![] }
}

/// A sequent that the rules lead to from leaves.
pub fn grown(random: &mut Random, fragment: &Fragment, names: &[u16], steps: usize) -> Drawn {
    let mut sequent = leaf_sequent(random, fragment, names);
    for _ in 0..steps {
        grow(random, fragment, names, &mut sequent);
    }
    if random.once_in(2) {
        random.shuffle(&mut sequent.linear);
    }
    sequent
}

/// Axiom, One or Top, as the fragment has them.
fn leaf_sequent(random: &mut Random, fragment: &Fragment, names: &[u16]) -> Drawn {
    let name = *random.pick(names);
    let linear = match random.below(6) {
        0 if fragment.has(ONE) => vec![Formula::One],
        1 if fragment.has(TOP) => vec![leaf(random, fragment, names), Formula::Top],
        _ if fragment.has(ATOM) => vec![neg_atom(name), atom(name)],
        _ => vec![Formula::Bottom, Formula::One],
    };
    Drawn { linear, unrestricted: vec![] }
}

/// One step downwards. A step that does not fit does nothing.
fn grow(random: &mut Random, fragment: &Fragment, names: &[u16], sequent: &mut Drawn) {
    if sequent.linear.is_empty() {
        return sequent.linear.extend(leaf_sequent(random, fragment, names).linear);
    }
    let place = random.below(sequent.linear.len());
    let tags = [TENSOR, PAR, WITH, PLUS, LOLLI, OF_COURSE, WHY_NOT, BOTTOM];
    match *random.pick(&tags) {
        tag if !(fragment.has(tag) || tag == PAR && fragment.has(LOLLI)) => {}
        TENSOR => join(random, fragment, names, sequent, place),
        tag @ (PAR | LOLLI) => pair(random, tag, sequent, place),
        WITH => put(sequent, place, |f| Formula::with(f.clone(), f)),
        PLUS => {
            let other = leaf(random, fragment, names);
            let left = random.once_in(2);
            put(sequent, place, |f| if left { Formula::plus(f, other) } else { Formula::plus(other, f) });
        }
        OF_COURSE if sequent.linear.len() == 1 => put(sequent, place, Formula::of_course),
        WHY_NOT => release(random, sequent, place),
        BOTTOM => sequent.linear.push(Formula::Bottom),
        _ => {}
    }
}

fn put(sequent: &mut Drawn, place: usize, change: impl FnOnce(Formula) -> Formula) {
    let old = std::mem::replace(&mut sequent.linear[place], Formula::One);
    sequent.linear[place] = change(old);
}

/// A tensor with a formula of another leaf.
fn join(random: &mut Random, fragment: &Fragment, names: &[u16], sequent: &mut Drawn, place: usize) {
    let mut other = leaf_sequent(random, fragment, names);
    let taken = other.linear.remove(random.below(other.linear.len()));
    put(sequent, place, |f| Formula::tensor(f, taken));
    sequent.linear.extend(other.linear);
}

/// A par of two formulas, or the implication that spells it.
fn pair(random: &mut Random, tag: u8, sequent: &mut Drawn, place: usize) {
    if sequent.linear.len() < 2 {
        return;
    }
    let first = sequent.linear.remove(place);
    let second = sequent.linear.remove(random.below(sequent.linear.len()));
    let first = if tag == LOLLI { first.negate() } else { first };
    sequent.linear.push(two(tag, first, second));
}

/// A why-not before a formula, or the formula in the unrestricted zone.
fn release(random: &mut Random, sequent: &mut Drawn, place: usize) {
    if sequent.linear.len() > 1 && random.once_in(2) {
        let formula = sequent.linear.remove(place);
        sequent.unrestricted.push(formula);
    } else {
        put(sequent, place, Formula::why_not);
    }
}

/// The sequent as a question of either kind. On the left side stand negations; unrestricted formulas get their why-not.
pub fn question(random: &mut Random, sequent: &Drawn) -> Question {
    if random.below(5) < 3 {
        return Question::one_sided(sequent.linear.clone(), sequent.unrestricted.clone());
    }
    let (mut antecedent, mut succedent) = (vec![], vec![]);
    let marked = sequent.unrestricted.iter().cloned().map(Formula::why_not);
    for formula in sequent.linear.iter().cloned().chain(marked) {
        if random.once_in(2) {
            antecedent.push(formula.negate());
        } else {
            succedent.push(formula);
        }
    }
    Question::two_sided(antecedent, succedent)
}

/// A sequent near to one that was asked before: its key is the same, or that of a premise, or nearly so.
pub fn variant(random: &mut Random, sequent: &Drawn) -> Drawn {
    let mut near = sequent.clone();
    match random.below(6) {
        0 => {}
        1 => random.shuffle(&mut near.linear),
        2 => swap_mark(&mut near),
        3 => random.shuffle(&mut near.unrestricted),
        4 if !near.linear.is_empty() => {
            let place = random.below(near.linear.len());
            put(&mut near, place, part);
        }
        _ if near.linear.len() > 1 => {
            near.linear.remove(random.below(near.linear.len()));
        }
        _ => near.linear.reverse(),
    }
    near
}

/// Linear ?A becomes unrestricted A, or the other way: the key stays.
fn swap_mark(sequent: &mut Drawn) {
    let place = sequent.linear.iter().position(|f| matches!(f, Formula::WhyNot(_)));
    if let Some(place) = place {
        if let Formula::WhyNot(a) = sequent.linear.remove(place) {
            sequent.unrestricted.push(*a);
        }
    } else if let Some(a) = sequent.unrestricted.pop() {
        sequent.linear.push(Formula::why_not(a));
    }
}

fn part(formula: Formula) -> Formula {
    match shape(&formula) {
        Shape::Two(LOLLI, a, b) => Formula::par(a.negate(), b.clone()),
        Shape::Two(_, a, _) | Shape::Under(_, a) => a.clone(),
        _ => formula,
    }
}
