//! The list of formulas.

use super::fragment::{all, formula, mixed, FRAGMENTS, SPREAD};
use crate::answer::MAX_FORMULA_HEIGHT;
use crate::formula::*;
use crate::random::Random;
use lolli_core::Formula;

/// Groups of formulas, each with what it is.
pub fn groups(seed: u64) -> Vec<(String, Vec<Formula>)> {
    let mut random = Random::new(seed);
    let small = all(&[1, 2], 4).concat();
    let mut groups = vec![("small, all of up to 4 signs and names".to_string(), small)];
    groups.push(("names".into(), spread_names()));
    for fragment in &FRAGMENTS {
        let drawn = (0..120).map(|i| {
            let names = some_names(&mut random);
            formula(&mut random, fragment, &names, 5 + i % 56)
        });
        groups.push((format!("random, {}", fragment.name), drawn.collect()));
    }
    groups.push(("high, 63 and 64".into(), high(&mut random)));
    groups.push(("long, 600 to 2,600 signs and names".into(), long(&mut random)));
    for (_, formulas) in &groups {
        assert!(formulas.iter().all(|f| height(f) <= MAX_FORMULA_HEIGHT));
    }
    groups
}

fn spread_names() -> Vec<Formula> {
    SPREAD.iter().flat_map(|&n| [atom(n), neg_atom(n)]).collect()
}

fn some_names(random: &mut Random) -> Vec<u16> {
    (0..4).map(|_| if random.once_in(2) { *random.pick(&SPREAD) } else { random.below(65_536) as u16 }).collect()
}

/// Each sign of two formulas nested to the left and to the right, each sign of one, and all of them mixed.
fn high(random: &mut Random) -> Vec<Formula> {
    let mut out = Vec::new();
    for height in [MAX_FORMULA_HEIGHT - 1, MAX_FORMULA_HEIGHT] {
        for tag in TENSOR..=LOLLI {
            out.push(tower(atom(height as u16), height, |f| two(tag, f, Formula::Zero)));
            out.push(tower(neg_atom(height as u16), height, |f| two(tag, Formula::One, f)));
        }
        for tag in [OF_COURSE, WHY_NOT] {
            out.push(tower(Formula::Top, height, |f| under(tag, f)));
        }
        out.push(tower(atom(0), height, |f| any_above(random, f)));
    }
    out
}

fn tower(start: Formula, height: usize, mut above: impl FnMut(Formula) -> Formula) -> Formula {
    (1..height).fold(start, |f, _| above(f))
}

fn any_above(random: &mut Random, f: Formula) -> Formula {
    let tag = random.between(usize::from(TENSOR), usize::from(WHY_NOT)) as u8;
    match tag {
        OF_COURSE | WHY_NOT => under(tag, f),
        _ if random.once_in(2) => two(tag, f, atom(9)),
        _ => two(tag, neg_atom(10), f),
    }
}

/// Drawn again where a formula came out too high.
fn long(random: &mut Random) -> Vec<Formula> {
    let mut out = Vec::new();
    for nodes in [600, 1000, 1500, 2600] {
        let names = some_names(random);
        let drawn = std::iter::repeat_with(|| formula(random, mixed(), &names, nodes));
        out.extend(drawn.filter(|f| height(f) <= MAX_FORMULA_HEIGHT).take(1));
    }
    out
}
