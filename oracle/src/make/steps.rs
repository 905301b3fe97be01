//! Trees of legal steps over every rule, grown from the leaves, and such trees with one small change, which makes most of them not legal: for strict mode.

use super::fragment::{formula, mixed};
use crate::formula::*;
use crate::random::Random;
use crate::tree::sequent;
use lolli_core::{Formula, Proof, Rule};

const NAMES: [u16; 3] = [1, 2, 257];

/// So many legal trees, each with changed ones behind it.
pub fn make(seed: u64, legal: usize, changed: usize) -> Vec<Proof> {
    let mut random = Random::new(seed.wrapping_add(0x5712_1C70));
    let mut out = Vec::new();
    for _ in 0..legal {
        let levels = random.below(7);
        let tree = grown(&mut random, levels);
        let near = (0..changed).map(|_| near(&mut random, &tree)).collect::<Vec<_>>();
        out.push(tree);
        out.extend(near);
    }
    out
}

fn node(rule: Rule, linear: Vec<Formula>, unrestricted: Vec<Formula>, premises: Vec<Proof>) -> Proof {
    Proof { conclusion: sequent(linear, unrestricted), rule, premises }
}

fn some_formula(random: &mut Random) -> Formula {
    let nodes = random.between(1, 4);
    formula(random, mixed(), &NAMES, nodes)
}

fn some(random: &mut Random, most: usize) -> Vec<Formula> {
    (0..random.below(most + 1)).map(|_| some_formula(random)).collect()
}

/// TopIntro over these formulas and some others.
fn top(random: &mut Random, mut linear: Vec<Formula>, theta: &[Formula]) -> Proof {
    linear.push(Formula::Top);
    linear.extend(some(random, 2));
    random.shuffle(&mut linear);
    node(Rule::TopIntro, linear, theta.to_vec(), vec![])
}

fn leaf(random: &mut Random, theta: &[Formula]) -> Proof {
    let name = *random.pick(&NAMES);
    match random.below(3) {
        0 => node(Rule::OneIntro, vec![Formula::One], theta.to_vec(), vec![]),
        1 => node(Rule::Axiom, vec![neg_atom(name), atom(name)], theta.to_vec(), vec![]),
        _ => top(random, vec![], theta),
    }
}

fn grown(random: &mut Random, levels: usize) -> Proof {
    if levels == 0 {
        let theta = some(random, 2);
        return leaf(random, &theta);
    }
    let premise = grown(random, levels - 1);
    let mut tree = if random.once_in(3) { two_premises(random, premise) } else { one_premise(random, premise) };
    for f in &mut tree.conclusion.linear {
        if random.once_in(3) {
            *f = respelled(f);
        }
    }
    random.shuffle(&mut tree.conclusion.linear);
    random.shuffle(&mut tree.conclusion.unrestricted);
    tree
}

/// An implication as its Par, and a Par as an implication, where that one's spelling gives it back.
fn respelled(f: &Formula) -> Formula {
    match f {
        Formula::Lolli(a, b) => Formula::par(a.negate(), (**b).clone()),
        Formula::Par(a, b) if a.negate().negate() == **a => Formula::lolli(a.negate(), (**b).clone()),
        _ => f.clone(),
    }
}

fn taken(random: &mut Random, zone: &mut Vec<Formula>) -> Formula {
    zone.remove(random.below(zone.len()))
}

/// A step down from a premise. Where the drawn rule does not fit, Weakening does.
fn one_premise(random: &mut Random, premise: Proof) -> Proof {
    let mut linear = premise.conclusion.linear.clone();
    let mut theta = premise.conclusion.unrestricted.clone();
    let rule = match random.below(9) {
        0 => {
            linear.push(Formula::Bottom);
            Rule::BottomIntro
        }
        1 if linear.len() > 1 => {
            let a = taken(random, &mut linear);
            let b = taken(random, &mut linear);
            linear.push(Formula::par(a, b));
            Rule::ParIntro
        }
        2 if !linear.is_empty() => {
            let a = taken(random, &mut linear);
            linear.push(Formula::plus(a, some_formula(random)));
            Rule::PlusIntroLeft
        }
        3 if !linear.is_empty() => {
            let b = taken(random, &mut linear);
            linear.push(Formula::plus(some_formula(random), b));
            Rule::PlusIntroRight
        }
        4 if linear.len() == 1 => {
            linear = vec![Formula::of_course(linear.remove(0))];
            Rule::OfCourseIntro
        }
        5 if !theta.is_empty() => {
            linear.push(Formula::why_not(taken(random, &mut theta)));
            Rule::WhyNotIntro
        }
        6 if !linear.is_empty() => {
            theta.push(taken(random, &mut linear));
            Rule::Dereliction
        }
        7 => return contracted(random, &theta),
        _ => {
            theta.push(some_formula(random));
            Rule::Weakening
        }
    };
    node(rule, linear, theta, vec![premise])
}

/// Contraction of a formula that stands twice beside a ⊤.
fn contracted(random: &mut Random, theta: &[Formula]) -> Proof {
    let f = some_formula(random);
    let rest = [some(random, 1), vec![Formula::Top]].concat();
    let premise = node(Rule::TopIntro, [vec![f.clone(), f.clone()], rest.clone()].concat(), theta.to_vec(), vec![]);
    node(Rule::Contraction, rest, [theta, &[f]].concat(), vec![premise])
}

/// A step down from a premise and a leaf beside it.
fn two_premises(random: &mut Random, premise: Proof) -> Proof {
    let theta = premise.conclusion.unrestricted.clone();
    let mut rest = premise.conclusion.linear.clone();
    if rest.is_empty() {
        return one_premise(random, premise);
    }
    let a = taken(random, &mut rest);
    match random.below(3) {
        0 => {
            let other = node(Rule::TopIntro, [&rest[..], &[Formula::Top]].concat(), theta.clone(), vec![]);
            rest.push(Formula::with(a, Formula::Top));
            node(Rule::WithIntro, rest, theta, vec![premise, other])
        }
        1 => {
            let other = leaf(random, &theta);
            let mut others = other.conclusion.linear.clone();
            let b = taken(random, &mut others);
            rest.extend(others);
            rest.push(Formula::tensor(a, b));
            node(Rule::TensorIntro, rest, theta, vec![premise, other])
        }
        _ => {
            let cut = if random.once_in(2) { respelled(&a) } else { a };
            let other = top(random, vec![], &theta);
            rest.extend(other.conclusion.linear.clone());
            let linear = [other.conclusion.linear, vec![cut.negate()]].concat();
            let other = node(Rule::TopIntro, linear, theta.clone(), vec![]);
            node(Rule::Cut(cut), rest, theta, vec![premise, other])
        }
    }
}

/// The tree with one change, at a node drawn from the root upward.
fn near(random: &mut Random, tree: &Proof) -> Proof {
    let mut out = tree.clone();
    let mut here = &mut out;
    while !here.premises.is_empty() && !random.once_in(2) {
        let next = random.below(here.premises.len());
        here = &mut here.premises[next];
    }
    change(random, here);
    out
}

fn change(random: &mut Random, node: &mut Proof) {
    let Proof { conclusion, rule, premises } = node;
    match (random.below(9), rule) {
        (0, Rule::Cut(cut)) => *cut = varied(random, cut),
        (1, _) => premises.reverse(),
        (2, _) if !conclusion.linear.is_empty() => {
            conclusion.unrestricted.push(taken(random, &mut conclusion.linear));
        }
        (3, _) if !conclusion.unrestricted.is_empty() => {
            conclusion.linear.push(taken(random, &mut conclusion.unrestricted));
        }
        (4 | 5, _) if !conclusion.unrestricted.is_empty() => vary_one(random, &mut conclusion.unrestricted),
        (6, _) if conclusion.linear.len() > 1 => {
            let doubled = random.pick(&conclusion.linear).clone();
            let place = random.below(conclusion.linear.len());
            conclusion.linear[place] = doubled;
        }
        _ if conclusion.linear.is_empty() => conclusion.linear.push(some_formula(random)),
        _ => vary_one(random, &mut conclusion.linear),
    }
}

fn vary_one(random: &mut Random, zone: &mut [Formula]) {
    let place = random.below(zone.len());
    zone[place] = varied(random, &zone[place]);
}

/// A formula much like this one: spelled otherwise, its parts swapped, another name, or negated, at the top or inside.
fn varied(random: &mut Random, f: &Formula) -> Formula {
    match shape(f) {
        Shape::Two(tag, a, b) => match random.below(5) {
            0 => two(tag, varied(random, a), b.clone()),
            1 => two(tag, a.clone(), varied(random, b)),
            2 => two(tag, b.clone(), a.clone()),
            3 => f.negate(),
            _ => respelled(f),
        },
        Shape::Under(tag, a) if random.once_in(2) => under(tag, varied(random, a)),
        Shape::Name(tag, number) if random.once_in(2) => name(tag, number ^ *random.pick(&[1, 256])),
        _ => f.negate(),
    }
}
