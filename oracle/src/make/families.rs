//! Families of questions whose size or depth is set by a number.

use super::Asks;
use crate::answer::{MAX_FORMULA_HEIGHT, MAX_SEQUENT};
use crate::formula::*;
use crate::question::Question;
use lolli_core::Formula;

fn linear(zone: Vec<Formula>) -> Question {
    Question::one_sided(zone, vec![])
}

/// a1, a1⊸a2, .., of so many implications ⊢ the last name.
pub fn chain(count: u16) -> Question {
    let mut held = vec![atom(1)];
    held.extend((1..=count).map(|n| Formula::lolli(atom(n), atom(n + 1))));
    Question::two_sided(held, vec![atom(count + 1)])
}

/// a1 so many times ⊢ its tensor so many times.
pub fn same_name(count: usize) -> Question {
    let wanted = (1..count).fold(atom(1), |f, _| Formula::tensor(atom(1), f));
    Question::two_sided(vec![atom(1); count], vec![wanted])
}

/// A formula and its negation.
pub fn identity(formula: &Formula) -> Question {
    linear(vec![formula.clone(), formula.negate()])
}

/// Signs nested in balance over 2^levels leaves, each leaf by its number.
pub fn balanced(tag: u8, levels: u32, leaf: &impl Fn(u16) -> Formula) -> Formula {
    over(tag, 0, 1 << levels, leaf)
}

fn over(tag: u8, from: u16, to: u16, leaf: &impl Fn(u16) -> Formula) -> Formula {
    if to - from == 1 {
        return leaf(from);
    }
    let middle = from + (to - from) / 2;
    two(tag, over(tag, from, middle, leaf), over(tag, middle, to, leaf))
}

/// How a ladder goes on: each is one step that a search can take.
pub const RUNGS: [fn(Formula) -> Formula; 8] = [
    |f| Formula::par(f, Formula::Bottom),
    |f| Formula::par(Formula::Bottom, f),
    |f| Formula::plus(f, Formula::Zero),
    |f| Formula::plus(Formula::Zero, f),
    |f| Formula::with(f, Formula::Top),
    |f| Formula::tensor(f, Formula::One),
    |f| Formula::of_course(f),
    |f| Formula::lolli(Formula::One, f),
];

/// One formula of a given height, its rungs taken in turn from the list.
pub fn ladder(rungs: &[fn(Formula) -> Formula], height: usize) -> Formula {
    (1..height).fold(Formula::One, |f, i| rungs[i % rungs.len()](f))
}

/// Names so many times over, unrestricted beside one linear formula.
pub fn unrestricted(count: u16, linear: Formula) -> Question {
    Question::one_sided(vec![linear], (1..=count).map(neg_atom).collect())
}

/// Sessions whose last tree has a Weakening. With the cache off the search finds none: what holds without an unrestricted
/// formula was found before with it. A failure kept from too small a depth bars that way, so the first question makes one.
pub fn weakened() -> Vec<Asks> {
    let provable = [Formula::One, Formula::Top, Formula::par(atom(9), neg_atom(9)), Formula::lolli(atom(0), atom(0))];
    let above: [fn(Formula) -> Formula; 4] = [
        |f| Formula::plus(f, Formula::Zero),
        |f| Formula::plus(atom(1), f),
        |f| Formula::tensor(Formula::One, f),
        Formula::of_course,
    ];
    let mut out = Vec::new();
    for f in &provable {
        for extra in [atom(1), Formula::Zero, Formula::tensor(atom(1), neg_atom(10))] {
            for above in above {
                let first = linear(vec![Formula::why_not(extra.clone()), f.clone()]);
                let second = Question::one_sided(vec![above(f.clone())], vec![extra.clone()]);
                out.push((true, vec![(0, first), (8, second)]));
            }
        }
    }
    out
}

/// Questions where an unrestricted formula is needed twice on one branch, so that the tree has a Contraction.
pub fn contracted() -> Vec<Question> {
    let used: [fn(Formula) -> Formula; 4] = [
        |f| Formula::tensor(f, Formula::Bottom),
        |f| Formula::tensor(Formula::Bottom, f),
        |f| Formula::plus(Formula::Zero, Formula::tensor(f, Formula::Bottom)),
        |f| Formula::with(Formula::tensor(f, Formula::Bottom), Formula::Top),
    ];
    let mut out = Vec::new();
    for used in used {
        for (name, negated) in [(atom(1), neg_atom(1)), (neg_atom(10), atom(10))] {
            out.extend(around(&name).into_iter().map(|zone| Question::one_sided(zone, vec![used(negated.clone())])));
        }
    }
    out
}

/// One and a name twice, joined in several ways.
fn around(name: &Formula) -> Vec<Vec<Formula>> {
    let apart = vec![Formula::One, name.clone(), name.clone()];
    let par = Formula::par(Formula::par(Formula::One, name.clone()), name.clone());
    let implication = Formula::lolli(name.negate(), Formula::par(name.clone(), Formula::One));
    vec![
        apart,
        vec![par.clone()],
        vec![implication],
        vec![Formula::of_course(par.clone())],
        vec![Formula::with(par.clone(), Formula::One)],
        vec![Formula::tensor(Formula::One, par.clone())],
        vec![Formula::plus(par, Formula::Zero), Formula::Bottom],
    ]
}

/// Names in a row, each step from one to the next in an unrestricted choice of all: two steps need Contraction, more are missed.
pub fn in_a_row(steps: u16) -> Vec<Question> {
    let step = |n: u16| Formula::tensor(atom(n), neg_atom(n + 1));
    let choice = (2..=steps).fold(step(1), |f, n| Formula::plus(f, step(n)));
    let ends = vec![neg_atom(1), atom(steps + 1)];
    let marked = [&[Formula::why_not(choice.clone())], &ends[..]].concat();
    vec![Question::one_sided(ends, vec![choice]), linear(marked)]
}

/// Questions at the edge of document 01's limits, on the side that passes: width, height, formulas, failures, visits, tree.
pub fn edges() -> Vec<Asks> {
    let names = |from: u16, to: u16| (from..to).map(atom).collect::<Vec<_>>();
    let mut widest = vec![Formula::par(atom(100), Formula::Top)];
    widest.extend(names(0, MAX_SEQUENT as u16 - 2));
    let high = ladder(&[Formula::of_course], MAX_FORMULA_HEIGHT);
    let full = balanced(WITH, 10, &atom);
    let failing = over(PLUS, 0, 500, &atom);
    let visits = balanced(PLUS, 13, &|_| Formula::Zero);
    // These numbers make the tree's body 65,535 bytes long.
    let mut longest = vec![Formula::Bottom; 4];
    longest.push(over(WITH, 0, 1450, &|_| Formula::Top));
    let longest = Question::one_sided(longest, vec![Formula::Zero; 2]);
    vec![
        (true, vec![(64, linear(names(0, MAX_SEQUENT as u16)))]),
        (true, vec![(64, linear(widest))]),
        (true, vec![(64, Question::one_sided(vec![Formula::One], names(0, 30)))]),
        (true, vec![(62, linear(vec![high.clone()])), (63, linear(vec![high.clone()]))]),
        (false, vec![(62, linear(vec![high.clone()])), (63, linear(vec![high.clone()])), (64, linear(vec![high]))]),
        (true, vec![(0, linear(vec![Formula::Top, full]))]),
        (true, vec![(32, linear(vec![failing])), (32, linear(vec![]))]),
        (false, vec![(32, linear(vec![Formula::Bottom, visits]))]),
        (true, vec![(32, longest)]),
    ]
}
