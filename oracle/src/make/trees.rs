//! The list of trees: found ones, damaged ones, and ones that no search makes.

use super::fragment::{formula, mixed, SPREAD};
use super::steps;
use crate::answer::{MAX_SEQUENT, MAX_TREE_HEIGHT};
use crate::formula::*;
use crate::random::Random;
use crate::tree::{self, plain_rule, sequent, BLUR, CUT, FOCUS_NEGATIVE, FOCUS_POSITIVE, RULES};
use lolli_core::{Formula, Proof, Rule};

/// Groups of trees, each with what it is. The found trees are given by their messages, none twice.
pub fn groups(seed: u64, found: &[Vec<u8>]) -> Vec<(String, Vec<Proof>)> {
    let mut random = Random::new(seed);
    let found: Vec<Proof> = found.iter().map(|message| tree::read(message).expect("as written")).collect();
    let damaged = (0..2000).map(|_| damaged(&mut random, &found)).collect();
    let drawn = (0..900).map(|_| drawn(&mut random, 6)).collect();
    let mut groups = vec![
        ("settled runs".into(), settled()),
        ("each rule over each conclusion with 0 to 3 premises".into(), crossed(&mut random)),
        ("found by the search".into(), found),
        ("found and then damaged".into(), damaged),
        ("random".into(), drawn),
        ("deep, up to 65 levels".into(), deep(&mut random)),
        ("wide, up to 255 premises".into(), wide(&mut random)),
        ("legal steps of every rule, and such trees changed".into(), steps::make(seed, 400, 2)),
    ];
    groups.iter_mut().for_each(|(_, trees): &mut (String, Vec<Proof>)| trees.retain(is_readable));
    groups
}

/// Damage can make a conclusion too wide: such a tree is refused in reading, and no verifier sees it.
fn is_readable(tree: &Proof) -> bool {
    tree::message(tree).and_then(|message| tree::read(&message)).is_ok()
}

fn node(rule: Rule, linear: Vec<Formula>, premises: Vec<Proof>) -> Proof {
    Proof { conclusion: sequent(linear, vec![]), rule, premises }
}

fn one() -> Proof {
    node(Rule::OneIntro, vec![Formula::One], vec![])
}

/// The two settled verdicts of document 01.
pub fn settled() -> Vec<Proof> {
    vec![node(Rule::OneIntro, vec![atom(1)], vec![one()]), node(Rule::TensorIntro, vec![atom(1)], vec![one()])]
}

/// A rule by number, with an argument drawn where it takes one.
fn rule(random: &mut Random, number: u8) -> Rule {
    match number {
        CUT => {
            let nodes = random.between(1, 6);
            Rule::Cut(formula(random, mixed(), &[1, 2], nodes))
        }
        FOCUS_POSITIVE => Rule::FocusPositive(usize::from(*random.pick(&SPREAD))),
        FOCUS_NEGATIVE => Rule::FocusNegative(usize::from(*random.pick(&SPREAD))),
        _ => plain_rule(number).expect("a rule without argument"),
    }
}

fn any_rule(random: &mut Random) -> Rule {
    let number = random.below(usize::from(RULES)) as u8;
    rule(random, number)
}

fn conclusions() -> Vec<(Vec<Formula>, Vec<Formula>)> {
    let (a, na) = (atom(1), neg_atom(1));
    let mut out: Vec<Vec<Formula>> = vec![
        vec![],
        vec![a.clone(), na.clone()],
        vec![na.clone(), a.clone()],
        vec![a.clone(), neg_atom(2)],
        vec![a.clone(), a.clone()],
        vec![a.clone(), na.clone(), Formula::Top],
        vec![Formula::One, Formula::Bottom],
    ];
    out.extend((ONE..=ZERO).map(|tag| vec![unit(tag)]));
    out.extend((TENSOR..=LOLLI).map(|tag| vec![na.clone(), two(tag, a.clone(), na.clone())]));
    out.extend([OF_COURSE, WHY_NOT].map(|tag| vec![under(tag, a.clone())]));
    out.push(out.concat());
    let all = out.concat();
    let mut out: Vec<_> = out.into_iter().map(|linear| (linear, vec![])).collect();
    out.push((vec![], all[..MAX_SEQUENT].to_vec()));
    out
}

/// Each rule over each conclusion, with each premise count, at the root or one step below it.
fn crossed(random: &mut Random) -> Vec<Proof> {
    let mut out = Vec::new();
    for number in 0..RULES {
        for (linear, unrestricted) in conclusions() {
            for count in 0..4 {
                let mut tree = node(rule(random, number), linear.clone(), vec![one(); count]);
                tree.conclusion.unrestricted = unrestricted.clone();
                out.push(if random.once_in(6) { below(random, tree) } else { tree });
            }
        }
    }
    out
}

/// The tree as second premise of a cut, or under a rule that tests nothing.
fn below(random: &mut Random, tree: Proof) -> Proof {
    match random.below(3) {
        0 => node(rule(random, CUT), vec![], vec![one(), tree]),
        1 => node(rule(random, FOCUS_POSITIVE), vec![], vec![one(), one(), tree]),
        _ => node(Rule::Blur, vec![atom(1)], vec![tree]),
    }
}

fn some_formula(random: &mut Random) -> Formula {
    let nodes = random.between(1, 4);
    formula(random, mixed(), &[1, 2], nodes)
}

/// A found tree with one to three damages. Found trees that are long are passed over.
fn damaged(random: &mut Random, found: &[Proof]) -> Proof {
    let mut tree = random.pick(found).clone();
    while count(&tree) > 20 || tree.conclusion.linear.len() > 8 {
        tree = random.pick(found).clone();
    }
    for _ in 0..random.between(1, 3) {
        let place = random.below(count(&tree));
        damage(random, at(&mut tree, place), found);
    }
    tree
}

/// One damage of a node; some take a part of a found tree.
pub fn damage(random: &mut Random, node: &mut Proof, found: &[Proof]) {
    match random.below(12) {
        0..=2 => node.rule = any_rule(random),
        3 => drop(node.premises.pop()),
        4 => node.premises.extend(node.premises.last().cloned()),
        5 => node.premises.push(one()),
        6 => node.premises.reverse(),
        7 => change_zone(random, &mut node.conclusion.linear),
        8 => change_zone(random, &mut node.conclusion.unrestricted),
        9 => node.conclusion.linear.reverse(),
        10 => {
            let inner = node.clone();
            *node = below(random, inner);
        }
        _ => replace(random, node, found),
    }
}

fn change_zone(random: &mut Random, zone: &mut Vec<Formula>) {
    let other = some_formula(random);
    match random.below(3) {
        0 => drop(zone.pop()),
        1 if !zone.is_empty() => {
            let place = random.below(zone.len());
            zone[place] = other;
        }
        _ => zone.push(other),
    }
}

/// Another small tree in the place of this one.
fn replace(random: &mut Random, node: &mut Proof, found: &[Proof]) {
    let other = random.pick(found);
    *node = if count(other) <= 5 { other.clone() } else { drawn(random, 2) };
}

pub fn count(tree: &Proof) -> usize {
    1 + tree.premises.iter().map(count).sum::<usize>()
}

/// The node of a number in preorder.
pub fn at(tree: &mut Proof, number: usize) -> &mut Proof {
    let mut left = number;
    let mut here = tree;
    while left > 0 {
        left -= 1;
        let mut next = 0;
        while left >= count(&here.premises[next]) {
            left -= count(&here.premises[next]);
            next += 1;
        }
        here = &mut here.premises[next];
    }
    here
}

/// A tree of random rules, each node mostly such that the verifier passes it.
fn drawn(random: &mut Random, levels: usize) -> Proof {
    let number = if levels == 0 { *random.pick(&[0, 2, 6, BLUR]) } else { random.below(usize::from(RULES)) as u8 };
    let (mut linear, mut premises) = fitting(random, number);
    if random.once_in(12) {
        change_zone(random, &mut linear);
    }
    if random.once_in(12) {
        premises = random.below(4);
    }
    if levels == 0 {
        premises = 0;
    }
    let premises = (0..premises).map(|_| drawn(random, levels - 1)).collect();
    let mut tree = node(rule(random, number), linear, premises);
    if random.once_in(4) {
        tree.conclusion.unrestricted.push(some_formula(random));
    }
    tree
}

/// A conclusion and a premise count that the verifier passes.
fn fitting(random: &mut Random, number: u8) -> (Vec<Formula>, usize) {
    let name = *random.pick(&SPREAD);
    let (a, b) = (some_formula(random), some_formula(random));
    let (principal, premises) = match number {
        0 if random.once_in(2) => return (vec![atom(name), neg_atom(name)], 0),
        0 => return (vec![neg_atom(name), atom(name)], 0),
        2 => return (vec![Formula::One], 0),
        3 => (Formula::Bottom, 1),
        4 => (Formula::tensor(a, b), 2),
        5 => (Formula::par(a, b), 1),
        6 => (Formula::Top, 0),
        7 => (Formula::with(a, b), 2),
        8 | 9 => (Formula::plus(a, b), 1),
        10 => (Formula::of_course(a), 1),
        CUT => (a, 2),
        11..=14 => (a, 1),
        _ => (a, random.below(3)),
    };
    let mut linear = vec![principal, some_formula(random)];
    random.shuffle(&mut linear);
    (linear, premises)
}

/// Chains of one premise, the last node right or wrong, up to the height that a reader takes.
fn deep(random: &mut Random) -> Vec<Proof> {
    let mut out = Vec::new();
    for height in [2, 9, 17, 33, 63, MAX_TREE_HEIGHT - 1, MAX_TREE_HEIGHT] {
        for number in [3, 5, 8, 9, 10, 11, 12, 13, 14, FOCUS_POSITIVE, FOCUS_NEGATIVE, BLUR] {
            let last = last(random);
            out.push((1..height).fold(last, |tree, _| step_down(random, number, tree)));
        }
    }
    out
}

fn last(random: &mut Random) -> Proof {
    match random.below(5) {
        0 => one(),
        1 => node(Rule::Axiom, vec![atom(1)], vec![]),
        2 => node(Rule::TensorIntro, vec![], vec![]),
        3 => node(rule(random, CUT), vec![], vec![]),
        _ => drawn(random, 0),
    }
}

fn step_down(random: &mut Random, number: u8, premise: Proof) -> Proof {
    let linear = match number {
        3 => vec![Formula::Bottom],
        5 => vec![Formula::par(Formula::One, Formula::Bottom)],
        8 | 9 => vec![Formula::plus(Formula::One, Formula::Zero)],
        10 => vec![Formula::of_course(Formula::One)],
        _ => vec![],
    };
    node(rule(random, number), linear, vec![premise])
}

/// Premise counts up to what one byte can say, and conclusions of 31 formulas.
fn wide(random: &mut Random) -> Vec<Proof> {
    let mut out = Vec::new();
    for premises in [4, 9, 100, 254, 255] {
        for number in [0, 1, 4, 5, 12, BLUR] {
            let linear = fitting(random, number).0;
            out.push(node(rule(random, number), linear, vec![one(); premises]));
        }
        let mut wrong_last = vec![one(); premises - 1];
        wrong_last.push(node(Rule::Axiom, vec![], vec![]));
        out.push(node(Rule::FocusNegative(premises), vec![], wrong_last));
    }
    for number in [3, 4, 5, 6, 7, 8, 10] {
        let (mut linear, premises) = fitting(random, number);
        linear.resize(MAX_SEQUENT, atom(65_535));
        linear.rotate_left(random.below(MAX_SEQUENT));
        out.push(node(rule(random, number), linear, vec![one(); premises]));
    }
    out
}
