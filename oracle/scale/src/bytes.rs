//! Bytes that are damaged, or were never a message.

use oracle::formula::{OF_COURSE, WHY_NOT};
use oracle::random::Random;

/// One to three damages of a message.
pub fn damaged(random: &mut Random, message: &[u8]) -> Vec<u8> {
    let mut bytes = message.to_vec();
    for _ in 0..random.between(1, 3) {
        damage(random, &mut bytes);
    }
    if random.once_in(2) {
        set_length(&mut bytes);
    }
    bytes
}

fn damage(random: &mut Random, bytes: &mut Vec<u8>) {
    if bytes.is_empty() {
        return bytes.push(random.below(256) as u8);
    }
    let place = random.below(bytes.len());
    match random.below(10) {
        0 => bytes[place] = random.below(256) as u8,
        1 => bytes[place] = random.below(19) as u8,
        2 => bytes[place] = bytes[place].wrapping_add(1),
        3 => bytes[place] = bytes[place].wrapping_sub(1),
        4 => bytes.insert(place, random.below(14) as u8),
        5 => drop(bytes.remove(place)),
        6 => bytes.truncate(place),
        7 => {
            let end = random.between(place, bytes.len());
            let copy = bytes[place..end].to_vec();
            let at = random.below(bytes.len());
            bytes.splice(at..at, copy);
        }
        8 => {
            // A tower around the height that a reader takes.
            let tower = vec![*random.pick(&[OF_COURSE, WHY_NOT]); random.between(58, 66)];
            bytes.splice(place..place, tower);
        }
        _ => bytes.push(random.below(14) as u8),
    }
}

/// Makes the length field agree, so that reading goes further.
pub fn set_length(bytes: &mut [u8]) {
    if bytes.len() >= 3 {
        let length = (bytes.len() - 3) as u16;
        bytes[1..3].copy_from_slice(&length.to_be_bytes());
    }
}

/// Bytes drawn at random, some of them tags and rules only, some behind a right head.
pub fn drawn(random: &mut Random) -> Vec<u8> {
    let most = *random.pick(&[4, 12, 60, 60, 400, 70_000]);
    let length = random.below(most + 1);
    let high = *random.pick(&[256, 20, 13, 7, 13]);
    let mut bytes: Vec<u8> = (0..length).map(|_| random.below(high) as u8).collect();
    if random.once_in(2) && !bytes.is_empty() {
        bytes[0] = 1;
        set_length(&mut bytes);
    }
    bytes
}
