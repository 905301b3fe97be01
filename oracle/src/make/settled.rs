//! The settled runs of document 01 that the Rust can answer: cache, then the questions of one session with their depth limits.

use super::Asks;
use crate::formula::{atom, neg_atom};
use crate::question::Question;
use lolli_core::Formula;

fn linear(zone: Vec<Formula>) -> Question {
    Question::one_sided(zone, vec![])
}

/// Where the Rust differs from the books or from what its comments say, each by a small sequent.
pub fn surprises() -> Vec<Asks> {
    let (a, na) = (atom(1), neg_atom(1));
    let use_up = Formula::tensor(na.clone(), Formula::Bottom);
    let promoted = Formula::plus(a.clone(), Formula::of_course(na.clone()));
    let chosen = [
        Formula::plus(a.clone(), a.clone()),
        Formula::plus(atom(2), na.clone()),
        Formula::tensor(na.clone(), a.clone()),
    ];
    let two_empty = Formula::tensor(Formula::Bottom, Formula::Bottom);
    let none_or = |f| Formula::plus(Formula::Zero, f);
    let late = Formula::plus(Formula::One, Formula::Zero);
    let deeper = (0..3).fold(late.clone(), |f, _| Formula::plus(f, Formula::Zero));
    let weakened = Question::one_sided(vec![Formula::plus(deeper, none_or(late))], vec![a.clone()]);
    let marked = linear(vec![Formula::One, Formula::why_not(a.clone())]);
    let unmarked = Question::one_sided(vec![Formula::One], vec![a.clone()]);
    vec![
        (true, vec![(32, linear(vec![Formula::why_not(Formula::Top)]))]),
        (true, vec![(32, Question::one_sided(vec![Formula::Bottom], vec![Formula::One]))]),
        (true, vec![(32, Question::one_sided(vec![a.clone()], vec![Formula::One, na]))]),
        (true, vec![(32, Question::one_sided(vec![Formula::One, a.clone(), a.clone(), a], vec![use_up]))]),
        (true, vec![(32, linear(vec![Formula::why_not(promoted)]))]),
        (true, vec![(2, linear(chosen.to_vec()))]),
        (false, vec![(2, linear(chosen.to_vec()))]),
        (true, vec![(0, marked), (0, unmarked)]),
        (true, vec![(32, Question::one_sided(vec![two_empty], vec![Formula::One]))]),
        (true, vec![(4, weakened.clone())]),
        (false, vec![(4, weakened)]),
    ]
}

pub fn runs() -> Vec<Asks> {
    let implication = linear(vec![Formula::lolli(atom(1), atom(1))]);
    let par = Formula::par(atom(1), atom(2));
    let par_top = linear(vec![par.clone(), Formula::Top]);
    let top_par = linear(vec![Formula::Top, par]);
    let double = Question::one_sided(vec![Formula::tensor(atom(1), atom(1))], vec![neg_atom(1)]);
    let example = Question::two_sided(vec![atom(1), Formula::lolli(atom(1), atom(2))], vec![atom(2)]);
    let alone = |limit, question| (true, vec![(limit, question)]);
    vec![
        alone(32, linear(vec![])),
        alone(0, linear(vec![atom(1), neg_atom(1)])),
        alone(32, linear(vec![atom(1), atom(1)])),
        alone(32, linear(vec![atom(1), neg_atom(1), Formula::One])),
        alone(32, Question::one_sided(vec![Formula::One], vec![atom(1)])),
        alone(32, linear(vec![Formula::why_not(Formula::One)])),
        alone(1, implication.clone()),
        alone(0, implication),
        (true, vec![(0, par_top), (0, top_par.clone())]),
        alone(0, top_par),
        alone(32, double),
        alone(32, example),
    ]
}

#[cfg(test)]
mod tests {
    use super::*;
    use crate::ask::session;
    use crate::tree;

    /// Answer, explored, hits, depth reached, failures held, height of the tree: of the last question of each run.
    const WANTED: [(u8, u32, u32, u8, u16, usize); 12] = [
        (1, 1, 0, 0, 1, 0),
        (0, 1, 0, 0, 0, 1),
        (1, 1, 0, 0, 1, 0),
        (1, 1, 0, 0, 1, 0),
        (0, 1, 0, 0, 0, 1),
        (1, 2, 0, 1, 1, 0),
        (0, 3, 0, 1, 0, 2),
        (1, 3, 0, 1, 2, 0),
        (1, 1, 1, 0, 1, 0),
        (0, 1, 0, 0, 0, 1),
        (0, 5, 0, 2, 0, 3),
        (0, 5, 0, 1, 2, 2),
    ];

    #[test]
    fn the_rust_answers_what_document_01_says() {
        for ((cache, asks), wanted) in runs().iter().zip(WANTED) {
            let asked = session(*cache, asks).asked.pop().unwrap();
            let height = tree::read(&asked.tree).map_or(0, |tree| tree.depth());
            let seen = (asked.answer, asked.explored, asked.hits, asked.reached, asked.held, height);
            assert_eq!(seen, wanted, "{asks:?}");
        }
    }
}
