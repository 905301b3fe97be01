//! Damages that keep a message's form: other places and masks in a short tree, exchanged formulas and changed nodes in a tree.

use crate::bytes::set_length;
use lolli_core::Formula;
use oracle::answer::{MAX_SEQUENT, MAX_TREE_HEIGHT};
use oracle::make::trees::{at, count, damage};
use oracle::random::Random;
use oracle::tree::{self, BLUR, BOTTOM_INTRO, TENSOR_INTRO};

/// Where a short message's nodes stand. They follow each other without counts, so their rules are enough.
fn nodes(message: &[u8]) -> Vec<usize> {
    let mut places = Vec::new();
    let mut next = 3;
    while next + 1 < message.len() {
        places.push(next);
        next += if message[next] == TENSOR_INTRO { 6 } else { 2 };
    }
    places
}

/// Another place or mask at one or two nodes, or another rule with as many bytes.
pub fn step(random: &mut Random, message: &[u8]) -> Vec<u8> {
    let mut out = message.to_vec();
    let nodes = nodes(message);
    let tensors: Vec<usize> = nodes.iter().copied().filter(|&node| message[node] == TENSOR_INTRO).collect();
    for _ in 0..=usize::from(random.once_in(3)) {
        let from = if tensors.is_empty() || random.once_in(2) { &nodes } else { &tensors };
        let node = *random.pick(from);
        match random.below(5) {
            0 => out[node + 1] = random.below(4) as u8,
            1 => out[node + 1] = random.below(34) as u8,
            2 if out[node] != TENSOR_INTRO => out[node] = *random.pick(&[0, 2, 3, 5, 6, 8, 9, 10, 11, 12, 13, 14]),
            _ if out[node] == TENSOR_INTRO => mask(random, &mut out[node + 2..node + 6]),
            _ => out[node + 1] = out[node + 1].wrapping_add(1),
        }
    }
    out
}

/// One bit changed, mostly a low one; or another low mask.
fn mask(random: &mut Random, bytes: &mut [u8]) {
    let old = u32::from_be_bytes([bytes[0], bytes[1], bytes[2], bytes[3]]);
    let new = match random.below(4) {
        0 => old ^ (1 << random.below(32)),
        1 => random.below(16) as u32,
        _ => old ^ (1 << random.below(6)),
    };
    bytes.copy_from_slice(&new.to_be_bytes());
}

/// Two formulas of a zone of one node exchanged, or two premises.
pub fn exchanged(random: &mut Random, message: &[u8]) -> Vec<u8> {
    let mut tree = tree::read(message).expect("a tree that was found");
    let place = random.below(count(&tree));
    let node = at(&mut tree, place);
    match random.below(8) {
        0 => node.premises.reverse(),
        1 => swap(random, &mut node.conclusion.unrestricted),
        _ => swap(random, &mut node.conclusion.linear),
    }
    tree::message(&tree).expect("it is as long as before")
}

/// One or two nodes changed in rule, zones or premises. Nothing where that makes it too long.
pub fn nodes_changed(random: &mut Random, message: &[u8]) -> Option<Vec<u8>> {
    let mut tree = tree::read(message).expect("a tree that was found");
    let found = [tree.clone()];
    for _ in 0..random.between(1, 2) {
        let place = random.below(count(&tree));
        damage(random, at(&mut tree, place), &found);
    }
    if random.once_in(8) {
        let place = random.below(count(&tree));
        at(&mut tree, place).conclusion.linear.resize(random.between(MAX_SEQUENT - 2, MAX_SEQUENT + 1), Formula::One);
    }
    tree::message(&tree).ok()
}

/// Levels put under a short tree's node or under a tree's root, around the height that a reader takes.
pub fn higher(random: &mut Random, message: &[u8], is_short: bool) -> Vec<u8> {
    let level: &[u8] = if is_short { &[BOTTOM_INTRO, 0] } else { &[BLUR, 0, 0, 0, 0, 1] };
    let place = if is_short { *random.pick(&nodes(message)) } else { 3 };
    let lowest = *random.pick(&[1, MAX_TREE_HEIGHT - 8]);
    let mut out = message.to_vec();
    out.splice(place..place, level.repeat(random.between(lowest, MAX_TREE_HEIGHT + 1)));
    set_length(&mut out);
    out
}

fn swap(random: &mut Random, zone: &mut [Formula]) {
    if zone.len() > 1 {
        let first = random.below(zone.len() - 1);
        zone.swap(first, random.between(first + 1, zone.len() - 1));
    }
}
