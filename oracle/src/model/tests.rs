//! Limits that the unchanged Rust does not have, so no stored answer shows them.

use super::*;
use crate::answer::*;
use crate::formula::{atom, neg_atom};
use lolli_core::Formula;

const USUAL: Settings = Settings { limit: 32, budget: MAX_BUDGET, cache: true, room: 65_539 };

fn linear(zone: Vec<Formula>) -> Vec<u8> {
    Question::one_sided(zone, vec![]).message().unwrap()
}

/// A memory that holds so many distinct atoms, named from 1,000 up.
fn filled(count: u16) -> Memory {
    let mut memory = Memory::fresh();
    let off = Settings { cache: false, ..USUAL };
    for first in (0..count).step_by(31) {
        let zone = (first..count.min(first + 31)).map(|n| atom(1000 + n)).collect();
        assert_eq!(memory.ask(&linear(zone), off).answer, NO);
    }
    memory
}

#[test]
fn a_par_beside_thirty_meets_6_at_depth_limit_0() {
    let mut zone = vec![Formula::par(atom(1), atom(2))];
    zone.extend((0..30).map(atom));
    let reply = Memory::fresh().ask(&linear(zone), Settings { limit: 0, ..USUAL });
    assert_eq!((reply.answer, reply.counters.explored), (TOO_WIDE, 1));
}

#[test]
fn formulas_held_2048_and_2049() {
    let mut memory = filled(2047);
    assert_eq!(memory.ask(&linear(vec![atom(1), neg_atom(1)]), USUAL).answer, TOO_MANY_FORMULAS);
    assert_eq!(memory.formulas().len(), 2047);
    assert_eq!(memory.ask(&linear(vec![atom(1)]), USUAL).answer, NO);
    assert_eq!(memory.formulas().len(), 2048);
}

#[test]
fn an_implication_without_room_is_taken_back_whole() {
    let mut memory = filled(2045);
    let reply = memory.ask(&linear(vec![Formula::lolli(atom(1), atom(1))]), USUAL);
    assert_eq!((reply.answer, reply.counters.explored), (TOO_MANY_FORMULAS, 1));
    assert_eq!(memory.formulas().len(), 2047);
}

#[test]
fn failures_1000_and_1001() {
    let mut memory = Memory::fresh();
    for n in 0..1000 {
        assert_eq!(memory.ask(&linear(vec![atom(n)]), USUAL).answer, NO);
    }
    let plus = linear(vec![Formula::plus(Formula::Zero, Formula::One)]);
    assert_eq!(memory.ask(&plus, USUAL).answer, TOO_MANY_FAILURES);
    assert_eq!(memory.ask(&plus, Settings { cache: false, ..USUAL }).answer, FOUND);
    assert_eq!(memory.ask(&linear(vec![atom(7)]), USUAL).answer, NO);
}

#[test]
fn the_budget_is_tested_before_the_count() {
    let question = linear(vec![Formula::Bottom, Formula::One]);
    let spent = Memory::fresh().ask(&question, Settings { budget: 1, ..USUAL });
    assert_eq!((spent.answer, spent.counters.explored), (BUDGET_SPENT, 1));
    assert_eq!(Memory::fresh().ask(&question, Settings { budget: 2, ..USUAL }).answer, FOUND);
    assert_eq!(Memory::fresh().ask(&question, Settings { budget: 16_385, ..USUAL }).answer, WRONG_SETTING);
}

#[test]
fn room_exact_and_one_short() {
    let question = linear(vec![atom(1), neg_atom(1)]);
    let exact = Memory::fresh().ask(&question, USUAL).tree.len();
    assert_eq!(Memory::fresh().ask(&question, Settings { room: exact, ..USUAL }).answer, FOUND);
    assert_eq!(Memory::fresh().ask(&question, Settings { room: exact - 1, ..USUAL }).answer, TOO_LONG);
}

#[test]
fn the_programs_example_holds_its_formulas_in_order() {
    let example = Question::two_sided(vec![atom(1), Formula::lolli(atom(1), atom(2))], vec![atom(2)]);
    let mut memory = Memory::fresh();
    let reply = memory.ask(&example.message().unwrap(), USUAL);
    assert_eq!((reply.answer, reply.tree.len()), (FOUND, 46));
    assert_eq!(reply.counters, Counters { explored: 5, hits: 0, reached: 1 });
    let held: Vec<String> = (0..6).map(|n| memory.formula(n).pretty_ascii()).collect();
    assert_eq!(held, ["a1", "a2", "(a1 -o a2)", "a1^", "a2^", "(a1 * a2^)"]);
    assert_eq!(memory.formulas().len(), 6);
}

/// Nested With over 2^levels tops.
fn tops(levels: usize) -> Formula {
    match levels {
        0 => Formula::Top,
        _ => Formula::with(tops(levels - 1), tops(levels - 1)),
    }
}

#[test]
fn tree_bodies_up_to_65535_bytes() {
    assert_eq!(Memory::fresh().ask(&linear(vec![tops(10)]), USUAL).tree.len(), 32_766);
    assert_eq!(Memory::fresh().ask(&linear(vec![tops(11)]), USUAL).answer, TOO_LONG);
}
