//! Trees on which a verifier takes long, for measuring: messages near 65,535 bytes, and a small one to compare with.

use crate::answer::{MAX_BODY, MAX_SEQUENT};
use crate::formula::*;
use crate::tree::{self, sequent};
use lolli_core::{Formula, Proof, Rule};

pub const NAMES: [&str; 9] = ["with", "tensor", "par", "plus", "contraction", "deep", "leaves", "wide", "small"];

pub fn tree(name: &str) -> Option<Proof> {
    Some(match name {
        "with" => largest(with),
        "tensor" => largest(tensor),
        "par" => largest(par),
        "plus" => largest(plus),
        "contraction" => largest(contraction),
        "deep" => deep(62),
        "leaves" => leaves(10),
        "wide" => largest(wide),
        "small" => small(),
        _ => return None,
    })
}

/// The tree of the longest formulas whose message is still read.
fn largest(make: fn(usize) -> Proof) -> Proof {
    let sizes: Vec<usize> = (7..MAX_BODY / MAX_SEQUENT).collect();
    let fitting = sizes.partition_point(|size| tree::message(&make(*size)).is_ok());
    make(sizes[fitting - 1])
}

fn node(rule: Rule, linear: Vec<Formula>, unrestricted: Vec<Formula>, premises: Vec<Proof>) -> Proof {
    Proof { conclusion: sequent(linear, unrestricted), rule, premises }
}

fn top(linear: Vec<Formula>, unrestricted: Vec<Formula>) -> Proof {
    node(Rule::TopIntro, linear, unrestricted, vec![])
}

/// A formula of about so many bytes that differs from others of its size in its last name alone.
fn long(size: usize, last: u16) -> Formula {
    if size < 7 {
        return atom(last);
    }
    let left = (size - 1) / 2;
    Formula::with(long(left, 0), long(size - 1 - left, last))
}

/// A formula of two long parts, and those parts.
fn joined(tag: u8, size: usize, last: u16) -> (Formula, Formula, Formula) {
    let (a, b) = (long(size / 2, 1), long(size / 2, last));
    (two(tag, a.clone(), b.clone()), a, b)
}

fn times(f: &Formula, count: usize, more: &[&Formula]) -> Vec<Formula> {
    let mut out: Vec<Formula> = more.iter().copied().cloned().collect();
    out.extend(vec![f.clone(); count]);
    out
}

/// One formula many times, so that each place is tried, and premises that differ from what is wanted in their last formula alone.
fn with(size: usize) -> Proof {
    let ((x, a, b), (u, ..), (v, ..)) = (joined(WITH, size, 2), joined(WITH, size, 3), joined(WITH, size, 4));
    let first = top([times(&x, 29, &[&a]), vec![u.clone()]].concat(), vec![]);
    let second = top([times(&x, 29, &[&b]), vec![v]].concat(), vec![]);
    node(Rule::WithIntro, times(&u, 1, &vec![&x; 30]), vec![], vec![first, second])
}

fn tensor(size: usize) -> Proof {
    let ((x, a, b), (u, ..), (v, ..)) = (joined(TENSOR, size, 2), joined(TENSOR, size, 3), joined(TENSOR, size, 4));
    let first = top(times(&x, 15, &[&a]), vec![]);
    let second = top([times(&x, 14, &[&b]), vec![v]].concat(), vec![]);
    node(Rule::TensorIntro, times(&u, 1, &vec![&x; 30]), vec![], vec![first, second])
}

fn par(size: usize) -> Proof {
    let ((x, a, b), (u, ..), (v, ..)) = (joined(PAR, size, 2), joined(PAR, size, 3), joined(PAR, size, 4));
    let premise = top([times(&x, 28, &[&a, &b]), vec![v]].concat(), vec![]);
    node(Rule::ParIntro, times(&u, 1, &vec![&x; 29]), vec![], vec![premise])
}

fn plus(size: usize) -> Proof {
    let ((x, a, _), (u, ..), (v, ..)) = (joined(PLUS, size, 2), joined(PLUS, size, 3), joined(PLUS, size, 4));
    let premise = top([times(&x, 29, &[&a]), vec![v]].concat(), vec![]);
    node(Rule::PlusIntroLeft, times(&u, 1, &vec![&x; 30]), vec![], vec![premise])
}

fn contraction(size: usize) -> Proof {
    let (x, u, v) = (long(size, 2), long(size, 3), long(size, 4));
    let premise = top(vec![x.clone(); 15], times(&v, 1, &vec![&x; 15]));
    node(Rule::Contraction, vec![x.clone(); 13], times(&u, 1, &vec![&x; 16]), vec![premise])
}

/// So many levels of WithIntro over 31 formulas, all of them legal.
fn deep(levels: usize) -> Proof {
    let rest = vec![Formula::with(atom(1), atom(2)); MAX_SEQUENT - 1];
    let leaf = top([rest.clone(), vec![Formula::Top]].concat(), vec![]);
    (0..levels).fold(leaf.clone(), |premise, _| {
        let last = premise.conclusion.linear.last().expect("31 formulas").clone();
        let linear = [rest.clone(), vec![Formula::with(last, Formula::Top)]].concat();
        node(Rule::WithIntro, linear, vec![], vec![premise, leaf.clone()])
    })
}

/// A full tree of so many levels of WithIntro over leaves ⊤, all of them legal.
fn leaves(levels: usize) -> Proof {
    (0..levels).fold(top(vec![Formula::Top], vec![]), |premise, _| {
        let part = premise.conclusion.linear[0].clone();
        node(Rule::WithIntro, vec![Formula::with(part.clone(), part)], vec![], vec![premise.clone(), premise])
    })
}

/// Blur over nodes of 31 formulas each: shape mode passes over all of it, and strict mode stops at the root.
fn wide(size: usize) -> Proof {
    let leaf = top(times(&Formula::Top, 1, &vec![&long(size, 1); MAX_SEQUENT - 1]), vec![]);
    node(Rule::Blur, vec![], vec![], vec![leaf; 10])
}

/// The tree of document 01's example.
fn small() -> Proof {
    let axiom = |a: Formula, b: Formula| node(Rule::Axiom, vec![a, b], vec![], vec![]);
    let linear = vec![neg_atom(1), Formula::tensor(atom(1), neg_atom(2)), atom(2)];
    node(Rule::TensorIntro, linear, vec![], vec![axiom(neg_atom(1), atom(1)), axiom(atom(2), neg_atom(2))])
}

#[cfg(test)]
mod tests {
    use super::*;
    use crate::strict::strict_verdict;

    #[test]
    fn each_can_be_read_and_is_legal_or_not() {
        for name in NAMES {
            let tree = tree(name).expect("a name of the list");
            assert!(tree::message(&tree).and_then(|message| tree::read(&message)).is_ok(), "{name}");
            let wanted = if ["deep", "leaves", "small"].contains(&name) { 0 } else { 15 };
            let verdict = strict_verdict(&tree);
            assert_eq!((verdict.answer, verdict.node), (wanted, 0), "{name}");
        }
    }
}
