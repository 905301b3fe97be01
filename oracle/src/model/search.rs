//! The limited search over held formulas. Order at a premise: 7, 6, 8, the count, depth reached, the depth no, the hit, the rules, 9.

use super::{Counters, Held, Memory, Number, Settings, Splits};
use crate::answer::{BUDGET_SPENT, MAX_SEQUENT, TOO_WIDE};
use crate::cursor::Read;
use crate::formula::*;
use crate::tree::*;

#[derive(Clone, Debug, PartialEq, Eq)]
pub struct Zones {
    pub linear: Vec<Number>,
    pub unrestricted: Vec<Number>,
}

impl Zones {
    /// Without the linear formula at a place, and with the parts at the end.
    fn taken_out(&self, place: usize, parts: &[Number]) -> Zones {
        let mut zones = self.clone();
        zones.linear.remove(place);
        zones.linear.extend(parts);
        zones
    }

    /// With another formula in the same place.
    fn in_place(&self, place: usize, number: Number) -> Zones {
        let mut zones = self.clone();
        zones.linear[place] = number;
        zones
    }

    /// Without the unrestricted formula at a place, and with so many linear copies of it.
    fn released(&self, place: usize, copies: usize) -> Zones {
        let mut zones = self.clone();
        let number = zones.unrestricted.remove(place);
        zones.linear.extend(std::iter::repeat_n(number, copies));
        zones
    }

    /// The share of the other formulas whose bit in the mask is as said, and a part at the end.
    fn share(&self, others: &[Number], mask: u64, bit: u64, part: Number) -> Zones {
        let taken = others.iter().enumerate().filter(|(i, _)| (mask >> i) & 1 == bit);
        let mut linear: Vec<Number> = taken.map(|(_, &number)| number).collect();
        linear.push(part);
        Zones { linear, unrestricted: self.unrestricted.clone() }
    }
}

#[derive(Clone, Debug)]
pub struct Node {
    pub rule: u8,
    pub zones: Zones,
    pub premises: Vec<Node>,
}

/// A tree, none, or a refusal.
type Found = Read<Option<Node>>;

pub struct Search<'a> {
    memory: &'a mut Memory,
    settings: Settings,
    pub counters: Counters,
    pub splits: Splits,
}

impl<'a> Search<'a> {
    pub fn new(memory: &'a mut Memory, settings: Settings) -> Self {
        Search { memory, settings, counters: Counters::default(), splits: Splits::default() }
    }

    pub fn visit(&mut self, zones: Zones, depth: u8) -> Found {
        if zones.linear.len() + zones.unrestricted.len() > MAX_SEQUENT {
            return Err(TOO_WIDE);
        }
        if self.counters.explored == self.settings.budget {
            return Err(BUDGET_SPENT);
        }
        self.counters.explored += 1;
        self.counters.reached = self.counters.reached.max(depth);
        if depth > self.settings.limit {
            return Ok(None);
        }
        if !self.settings.cache {
            return self.decompose(&zones, depth);
        }
        let key = self.memory.key(&zones);
        if self.memory.is_known(&key) {
            self.counters.hits += 1;
            return Ok(None);
        }
        let found = self.decompose(&zones, depth)?;
        if found.is_none() {
            self.memory.record(key)?;
        }
        Ok(found)
    }

    /// The first decomposable formula from the left is taken alone.
    fn decompose(&mut self, zones: &Zones, depth: u8) -> Found {
        if zones.linear.is_empty() {
            return Ok(None);
        }
        for (place, &number) in zones.linear.iter().enumerate() {
            match self.memory.held(number) {
                Held::Two(PAR, a, b) => return self.step(PAR_INTRO, zones, depth, [zones.taken_out(place, &[a, b])]),
                Held::Unit(BOTTOM) => return self.step(BOTTOM_INTRO, zones, depth, [zones.taken_out(place, &[])]),
                Held::Unit(TOP) => return self.step(TOP_INTRO, zones, depth, []),
                Held::Two(WITH, a, b) => {
                    let premises = [zones.taken_out(place, &[a]), zones.taken_out(place, &[b])];
                    return self.step(WITH_INTRO, zones, depth, premises);
                }
                Held::Under(WHY_NOT, a) => {
                    let mut premise = zones.taken_out(place, &[]);
                    premise.unrestricted.push(a);
                    return self.step(WHY_NOT_INTRO, zones, depth, [premise]);
                }
                Held::Two(LOLLI, a, b) => {
                    let spelled = self.memory.spell(a, b)?;
                    return self.visit(zones.in_place(place, spelled), depth);
                }
                _ => {}
            }
        }
        self.choose(zones, depth)
    }

    /// Positives left to right, then the unrestricted zone. A negated atom finds nothing that its atom did not.
    fn choose(&mut self, zones: &Zones, depth: u8) -> Found {
        for place in 0..zones.linear.len() {
            if let Some(node) = self.focus(zones, place, depth)? {
                return Ok(Some(node));
            }
        }
        for (rule, copies) in [(DERELICTION, 1), (CONTRACTION, 2), (WEAKENING, 0)] {
            for place in 0..zones.unrestricted.len() {
                if let Some(node) = self.step(rule, zones, depth, [zones.released(place, copies)])? {
                    return Ok(Some(node));
                }
            }
        }
        Ok(None)
    }

    fn focus(&mut self, zones: &Zones, place: usize, depth: u8) -> Found {
        let alone = zones.linear.len() == 1;
        match self.memory.held(zones.linear[place]) {
            Held::Name(ATOM, name) if self.is_pair(zones, place, name) => self.step(AXIOM, zones, depth, []),
            Held::Unit(ONE) if alone => self.step(ONE_INTRO, zones, depth, []),
            Held::Under(OF_COURSE, a) if alone => self.step(OF_COURSE_INTRO, zones, depth, [zones.in_place(place, a)]),
            Held::Two(TENSOR, a, b) => self.split(zones, place, a, b, depth),
            Held::Two(PLUS, a, b) => {
                let left = self.step(PLUS_INTRO_LEFT, zones, depth, [zones.in_place(place, a)])?;
                if left.is_some() {
                    return Ok(left);
                }
                self.step(PLUS_INTRO_RIGHT, zones, depth, [zones.in_place(place, b)])
            }
            _ => Ok(None),
        }
    }

    /// Exactly two formulas, the other the negated atom of the same name.
    fn is_pair(&self, zones: &Zones, place: usize, name: u16) -> bool {
        zones.linear.len() == 2 && self.memory.held(zones.linear[1 - place]) == Held::Name(NEG_ATOM, name)
    }

    /// All masks from 0 upward, one by one; an item goes left when its bit is 0.
    fn split(&mut self, zones: &Zones, place: usize, a: Number, b: Number, depth: u8) -> Found {
        let others = zones.taken_out(place, &[]).linear;
        self.splits.widest = self.splits.widest.max(others.len());
        self.splits.built += 1 << others.len();
        for mask in 0..1u64 << others.len() {
            let premises = [zones.share(&others, mask, 0, a), zones.share(&others, mask, 1, b)];
            if let Some(node) = self.step(TENSOR_INTRO, zones, depth, premises)? {
                return Ok(Some(node));
            }
        }
        Ok(None)
    }

    /// A node, if each premise in turn gives a tree one deeper.
    fn step<const N: usize>(&mut self, rule: u8, zones: &Zones, depth: u8, wanted: [Zones; N]) -> Found {
        let mut premises = Vec::with_capacity(N);
        for premise in wanted {
            match self.visit(premise, depth + 1)? {
                Some(node) => premises.push(node),
                None => return Ok(None),
            }
        }
        Ok(Some(Node { rule, zones: zones.clone(), premises }))
    }
}
