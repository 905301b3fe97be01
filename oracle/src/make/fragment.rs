//! Fragments of the logic, and random formulas of each.

use crate::formula::*;
use crate::random::Random;
use lolli_core::Formula;

pub struct Fragment {
    pub name: &'static str,
    leaves: &'static [u8],
    inner: &'static [u8],
}

impl Fragment {
    pub fn has(&self, tag: u8) -> bool {
        self.leaves.contains(&tag) || self.inner.contains(&tag)
    }
}

pub const FRAGMENTS: [Fragment; 6] = [
    Fragment { name: "multiplicative", leaves: &[ATOM, NEG_ATOM], inner: &[TENSOR, PAR] },
    Fragment { name: "additive", leaves: &[ATOM, NEG_ATOM, ATOM, NEG_ATOM, TOP, ZERO], inner: &[WITH, PLUS] },
    Fragment {
        name: "exponential",
        leaves: &[ATOM, NEG_ATOM, ATOM, NEG_ATOM, ONE],
        inner: &[OF_COURSE, WHY_NOT, TENSOR, PAR],
    },
    Fragment { name: "units", leaves: &[ONE, BOTTOM, TOP, ZERO], inner: &[TENSOR, PAR, WITH, PLUS] },
    Fragment { name: "implications", leaves: &[ATOM, NEG_ATOM, ATOM, ONE], inner: &[LOLLI, LOLLI, TENSOR, PLUS] },
    Fragment {
        name: "mixed",
        leaves: &[ONE, BOTTOM, TOP, ZERO, ATOM, NEG_ATOM, ATOM, NEG_ATOM],
        inner: &[TENSOR, PAR, WITH, PLUS, LOLLI, OF_COURSE, WHY_NOT],
    },
];

pub fn mixed() -> &'static Fragment {
    &FRAGMENTS[5]
}

/// Names where the number of digits or of bytes changes.
pub const SPREAD: [u16; 16] = [0, 1, 9, 10, 11, 99, 100, 255, 256, 999, 1000, 9999, 10_000, 32_768, 65_534, 65_535];

/// One to three names, mostly small ones so that they meet.
pub fn names(random: &mut Random) -> Vec<u16> {
    let count = random.between(1, 3);
    match random.below(4) {
        0 => (0..count).map(|_| *random.pick(&SPREAD)).collect(),
        1 => (0..count).map(|_| random.below(65_536) as u16).collect(),
        _ => (1..=count as u16).collect(),
    }
}

/// A random formula of so many signs and names, or fewer where the fragment has no fitting sign.
pub fn formula(random: &mut Random, fragment: &Fragment, names: &[u16], nodes: usize) -> Formula {
    let fits = |tag: &&u8| if **tag <= LOLLI { nodes >= 3 } else { nodes >= 2 };
    let inner: Vec<u8> = fragment.inner.iter().filter(fits).copied().collect();
    if inner.is_empty() {
        return leaf(random, fragment, names);
    }
    let tag = *random.pick(&inner);
    if tag > LOLLI {
        return under(tag, formula(random, fragment, names, nodes - 1));
    }
    let left = random.between(1, nodes - 2);
    let a = formula(random, fragment, names, left);
    two(tag, a, formula(random, fragment, names, nodes - 1 - left))
}

pub fn leaf(random: &mut Random, fragment: &Fragment, names: &[u16]) -> Formula {
    match *random.pick(fragment.leaves) {
        tag @ (ATOM | NEG_ATOM) => name(tag, *random.pick(names)),
        tag => unit(tag),
    }
}

/// All formulas of exactly 1, 2, .. so many signs and names over the given names, by that number.
pub fn all(names: &[u16], most: usize) -> Vec<Vec<Formula>> {
    let mut ones: Vec<Formula> = (ONE..=ZERO).map(unit).collect();
    ones.extend(names.iter().flat_map(|&n| [atom(n), neg_atom(n)]));
    let mut sizes = vec![vec![], ones];
    for size in 2..=most {
        let next = all_of(size, &sizes);
        sizes.push(next);
    }
    sizes
}

fn all_of(size: usize, smaller: &[Vec<Formula>]) -> Vec<Formula> {
    let mut out = Vec::new();
    for tag in [OF_COURSE, WHY_NOT] {
        out.extend(smaller[size - 1].iter().map(|a| under(tag, a.clone())));
    }
    for left in 1..size.saturating_sub(1) {
        for a in &smaller[left] {
            for b in &smaller[size - 1 - left] {
                out.extend((TENSOR..=LOLLI).map(|tag| two(tag, a.clone(), b.clone())));
            }
        }
    }
    out
}
