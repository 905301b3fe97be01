//! The questions that are measured, by family.

use lolli_core::Formula;
use oracle::formula::{atom, neg_atom, PLUS, WITH};
use oracle::make::families::{
    balanced, chain, contracted, edges, identity, in_a_row, ladder, same_name, unrestricted, RUNGS,
};
use oracle::question::Question;

/// The depth limit of all questions.
pub const LIMIT: u8 = 64;

pub struct Family {
    pub name: &'static str,
    pub questions: Vec<Question>,
    /// With the cache on, off, or both: as far as the limits let it end.
    pub caches: &'static [bool],
}

const BOTH: &[bool] = &[true, false];

fn tensor(names: impl DoubleEndedIterator<Item = u16>) -> Formula {
    names.rev().map(atom).reduce(|f, name| Formula::tensor(name, f)).expect("at least one name")
}

/// Names from 1 on ⊢ their tensor, in the order given.
fn tensor_goal(held: impl Iterator<Item = u16>, count: u16) -> Question {
    Question::two_sided(held.map(atom).collect(), vec![tensor(1..=count)])
}

fn one_sided(linear: Vec<Formula>) -> Question {
    Question::one_sided(linear, vec![])
}

/// Beside two names, a nest of With whose leaves hold; and whose last leaf does not.
fn with_nest(levels: u32, last_holds: bool) -> Question {
    let last = (1 << levels) - 1;
    let leaf = |n| if n == last && !last_holds { Formula::Zero } else { Formula::par(atom(n), Formula::Top) };
    one_sided(vec![atom(1), neg_atom(2), balanced(WITH, levels, &leaf)])
}

/// The families whose questions cost hundreds to thousands of visits.
pub fn costly() -> Vec<Family> {
    let with_plus = identity(&balanced(WITH, 5, &atom));
    let family = |name, questions| Family { name, questions, caches: BOTH };
    vec![
        family("tensor of 8, found", vec![tensor_goal(1..=8, 8)]),
        family("tensor of 8, reversed", vec![tensor_goal((1..=8).rev(), 8)]),
        family("tensor of 8, one missing", vec![tensor_goal(1..=7, 8)]),
        family("one name 8 times", vec![same_name(8)]),
        family("chain of 4 implications", vec![chain(4)]),
        Family { name: "chain of 5 implications", questions: vec![chain(5)], caches: &[true] },
        family("With, 8 levels, found", vec![with_nest(8, true)]),
        family("With, 8 levels, last fails", vec![with_nest(8, false)]),
        family("With against Plus, 5 levels", vec![with_plus]),
        family("unrestricted, contracted", contracted()),
        family("unrestricted, in a row", in_a_row(3)),
        family("unrestricted names, tensor of 4", vec![unrestricted(4, tensor(1..=4))]),
    ]
}

/// Questions of one visit up to about 200.
pub fn small() -> Vec<Family> {
    let family = |name, question| Family { name, questions: vec![question], caches: BOTH };
    vec![
        family("small: 1", one_sided(vec![Formula::One])),
        family("small: name against itself", one_sided(vec![atom(1), neg_atom(1)])),
        family("small: tensor of 3", tensor_goal((1..=3).rev(), 3)),
        family("small: chain of 1", chain(1)),
        family("small: chain of 2", chain(2)),
        family("small: Plus of 16", one_sided(vec![balanced(PLUS, 4, &atom)])),
        family("small: tensor of 5, reversed", tensor_goal((1..=5).rev(), 5)),
        family("small: With against Plus", identity(&balanced(WITH, 3, &atom))),
    ]
}

/// The questions whose trees are shortened, each with a tree.
pub fn shortened() -> Vec<(&'static str, Question)> {
    let longest = edges().pop().expect("the last edge is the longest tree").1[0].1.clone();
    let towers = ladder(&[Formula::of_course], 64);
    vec![
        ("chain of 1 implication: the example", chain(1)),
        ("chain of 3", chain(3)),
        ("chain of 5", chain(5)),
        ("tensor of 3", tensor_goal(1..=3, 3)),
        ("tensor of 8", tensor_goal(1..=8, 8)),
        ("tensor of 8, reversed", tensor_goal((1..=8).rev(), 8)),
        ("tensor of 12", tensor_goal(1..=12, 12)),
        ("one name 8 times", same_name(8)),
        ("With, 4 levels", with_nest(4, true)),
        ("With, 8 levels", with_nest(8, true)),
        ("With against Plus, 5 levels", identity(&balanced(WITH, 5, &atom))),
        ("unrestricted names, tensor of 4", unrestricted(4, tensor(1..=4))),
        ("unrestricted, contracted", contracted().remove(0)),
        ("unrestricted, in a row", in_a_row(2).remove(0)),
        ("of course, height 64", one_sided(vec![towers])),
        ("ladder of eight signs, height 40", one_sided(vec![ladder(&RUNGS, 40)])),
        ("the longest body, 65,535 bytes", longest),
    ]
}
