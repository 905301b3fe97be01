//! What is held: distinct formulas, numbered as first met, and failures in order of entry.

use super::{Node, Zones};
use crate::answer::{MAX_BODY, MAX_FAILURES, MAX_FORMULAS, TOO_LONG, TOO_MANY_FAILURES, TOO_MANY_FORMULAS, VERSION};
use crate::cursor::{put_counted, Read};
use crate::formula::*;
use crate::question::Question;
use lolli_core::Formula;
use std::collections::{HashMap, HashSet};

pub type Number = u32;

/// Twice the number of a held formula, plus one if it is marked with a why-not.
pub type Item = u32;

/// A held formula. Its parts are formulas held before it.
#[derive(Clone, Copy, Debug, PartialEq, Eq, Hash)]
pub enum Held {
    Unit(u8),
    Name(u8, u16),
    Two(u8, Number, Number),
    Under(u8, Number),
}

#[derive(Clone, Debug, Default)]
pub struct Memory {
    formulas: Vec<Held>,
    numbers: HashMap<Held, Number>,
    failures: Vec<Vec<Item>>,
    known: HashSet<Vec<Item>>,
}

impl Memory {
    pub fn fresh() -> Self {
        Memory::default()
    }

    /// A memory that holds these formulas and failures, in this order, none of them twice.
    pub fn holding(formulas: Vec<Held>, failures: Vec<Vec<Item>>) -> Self {
        let numbers = formulas.iter().copied().zip(0..).collect();
        let known = failures.iter().cloned().collect();
        Memory { formulas, numbers, failures, known }
    }

    pub fn formulas(&self) -> &[Held] {
        &self.formulas
    }

    pub fn failures(&self) -> &[Vec<Item>] {
        &self.failures
    }

    pub fn held(&self, number: Number) -> Held {
        self.formulas[number as usize]
    }

    pub fn formula(&self, number: Number) -> Formula {
        match self.held(number) {
            Held::Unit(tag) => unit(tag),
            Held::Name(tag, number) => name(tag, number),
            Held::Two(tag, a, b) => two(tag, self.formula(a), self.formula(b)),
            Held::Under(tag, a) => under(tag, self.formula(a)),
        }
    }

    /// The formula that an item stands for; the mark is written as the why-not it means.
    pub fn item_formula(&self, item: Item) -> Formula {
        let formula = self.formula(item / 2);
        if item % 2 == 1 {
            Formula::why_not(formula)
        } else {
            formula
        }
    }

    /// Enters formulas all or nothing: 7 takes back whatever this made.
    fn all_or_nothing<T>(&mut self, enter: impl FnOnce(&mut Self) -> T) -> Read<T> {
        let before = self.formulas.len();
        let entered = enter(self);
        if self.formulas.len() <= MAX_FORMULAS {
            return Ok(entered);
        }
        self.take_back(before);
        Err(TOO_MANY_FORMULAS)
    }

    /// Only so many formulas stay, those that were entered first.
    pub(crate) fn take_back(&mut self, count: usize) {
        for held in self.formulas.drain(count..) {
            self.numbers.remove(&held);
        }
    }

    /// Enters one formula with its parts, or nothing of it.
    pub(crate) fn enter_whole(&mut self, formula: &Formula) -> Read<Number> {
        self.all_or_nothing(|memory| memory.enter_formula(formula))
    }

    /// Enters a question: the formulas read, then the negations of an antecedent.
    pub(crate) fn enter_question(&mut self, question: &Question) -> Read<Zones> {
        self.all_or_nothing(|memory| {
            let (kind, first, second) = question.parts();
            let first: Vec<Number> = first.iter().map(|f| memory.enter_formula(f)).collect();
            let second: Vec<Number> = second.iter().map(|f| memory.enter_formula(f)).collect();
            if kind == 1 {
                return Zones { linear: first, unrestricted: second };
            }
            let mut linear: Vec<Number> = first.into_iter().map(|number| memory.negate(number)).collect();
            linear.extend(second);
            Zones { linear, unrestricted: vec![] }
        })
    }

    /// Spells out the implication of a and b: the par of a negated, and b.
    pub(super) fn spell(&mut self, a: Number, b: Number) -> Read<Number> {
        self.all_or_nothing(|memory| {
            let negated = memory.negate(a);
            memory.enter(Held::Two(PAR, negated, b))
        })
    }

    fn enter(&mut self, held: Held) -> Number {
        let next = self.formulas.len() as Number;
        let number = *self.numbers.entry(held).or_insert(next);
        if number == next {
            self.formulas.push(held);
        }
        number
    }

    fn enter_formula(&mut self, formula: &Formula) -> Number {
        let held = match shape(formula) {
            Shape::Unit(tag) => Held::Unit(tag),
            Shape::Name(tag, number) => Held::Name(tag, number),
            Shape::Under(tag, a) => Held::Under(tag, self.enter_formula(a)),
            Shape::Two(tag, a, b) => {
                let a = self.enter_formula(a);
                Held::Two(tag, a, self.enter_formula(b))
            }
        };
        self.enter(held)
    }

    fn negate(&mut self, number: Number) -> Number {
        let held = match self.held(number) {
            Held::Unit(tag) => Held::Unit(dual(tag)),
            Held::Name(tag, name) => Held::Name(dual(tag), name),
            Held::Under(tag, a) => Held::Under(dual(tag), self.negate(a)),
            Held::Two(LOLLI, a, b) => Held::Two(TENSOR, a, self.negate(b)),
            Held::Two(tag, a, b) => {
                let a = self.negate(a);
                Held::Two(dual(tag), a, self.negate(b))
            }
        };
        self.enter(held)
    }

    /// The key of a sequent: its items, sorted. Linear ?A and unrestricted A are both the marked A.
    pub(super) fn key(&self, zones: &Zones) -> Vec<Item> {
        let linear = zones.linear.iter().map(|&number| match self.held(number) {
            Held::Under(WHY_NOT, a) => 2 * a + 1,
            _ => 2 * number,
        });
        let mut items: Vec<Item> = linear.chain(zones.unrestricted.iter().map(|a| 2 * a + 1)).collect();
        items.sort();
        items
    }

    pub(super) fn is_known(&self, key: &[Item]) -> bool {
        self.known.contains(key)
    }

    /// Records a failure. One that is held already needs no room.
    pub(super) fn record(&mut self, key: Vec<Item>) -> Read<()> {
        if self.known.contains(&key) {
            return Ok(());
        }
        if self.failures.len() == MAX_FAILURES {
            return Err(TOO_MANY_FAILURES);
        }
        self.known.insert(key.clone());
        self.failures.push(key);
        Ok(())
    }

    /// The length of each held formula in bytes.
    fn lengths(&self) -> Vec<u64> {
        let mut lengths: Vec<u64> = Vec::with_capacity(self.formulas.len());
        for held in &self.formulas {
            lengths.push(match *held {
                Held::Unit(_) => 1,
                Held::Name(_, _) => 3,
                Held::Two(_, a, b) => 1 + lengths[a as usize] + lengths[b as usize],
                Held::Under(_, a) => 1 + lengths[a as usize],
            });
        }
        lengths
    }

    /// The message of a tree, its length worked out before a byte is written.
    pub(super) fn tree_message(&self, node: &Node, room: usize) -> Read<Vec<u8>> {
        let body = body_length(node, &self.lengths());
        if body > MAX_BODY as u64 || body + 3 > room as u64 {
            return Err(TOO_LONG);
        }
        let mut bytes = Vec::new();
        self.write_node(node, &mut bytes);
        let mut out = vec![VERSION];
        put_counted(&mut out, &bytes);
        Ok(out)
    }

    fn write_node(&self, node: &Node, out: &mut Vec<u8>) {
        out.push(node.rule);
        for zone in [&node.zones.linear, &node.zones.unrestricted] {
            let formulas: Vec<Formula> = zone.iter().map(|&number| self.formula(number)).collect();
            write_zone(&formulas, out);
        }
        out.push(node.premises.len() as u8);
        node.premises.iter().for_each(|premise| self.write_node(premise, out));
    }
}

/// Rule, two zone lengths, premise count: 6 bytes a node beside its formulas.
fn body_length(node: &Node, lengths: &[u64]) -> u64 {
    let zones = node.zones.linear.iter().chain(&node.zones.unrestricted);
    let formulas: u64 = zones.map(|&number| lengths[number as usize]).sum();
    let premises: u64 = node.premises.iter().map(|premise| body_length(premise, lengths)).sum();
    6 + formulas + premises
}

/// The tag that negation gives. An implication has none: its negation keeps a part as it is.
fn dual(tag: u8) -> u8 {
    match tag {
        ONE => BOTTOM,
        BOTTOM => ONE,
        TOP => ZERO,
        ZERO => TOP,
        ATOM => NEG_ATOM,
        NEG_ATOM => ATOM,
        TENSOR => PAR,
        PAR => TENSOR,
        WITH => PLUS,
        PLUS => WITH,
        OF_COURSE => WHY_NOT,
        WHY_NOT => OF_COURSE,
        _ => panic!("tag {tag} has no dual"),
    }
}
