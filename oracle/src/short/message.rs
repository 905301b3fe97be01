//! The short message: version byte 2, two-byte length of the rest, the nodes in preorder. A node: rule, place, and at TensorIntro a four-byte mask.
//! How many premises follow is the rule's.

use super::steps::Step;
use crate::answer::{MAX_TREE_HEIGHT, SHORT_VERSION, TOO_HIGH, WRONG_NUMBER};
use crate::cursor::{Cursor, Read};
use crate::tree::*;

pub struct Short {
    pub step: Step,
    pub premises: Vec<Short>,
}

/// How many premises a rule has; none for a rule without short form.
pub fn premise_count(rule: u8) -> Option<usize> {
    match rule {
        AXIOM | ONE_INTRO | TOP_INTRO => Some(0),
        TENSOR_INTRO | WITH_INTRO => Some(2),
        CUT | FOCUS_POSITIVE.. => None,
        _ => Some(1),
    }
}

pub fn write(step: Step, out: &mut Vec<u8>) {
    out.extend([step.rule, step.place]);
    if step.rule == TENSOR_INTRO {
        out.extend(step.mask.to_be_bytes());
    }
}

pub fn read(message: &[u8]) -> Read<Short> {
    let mut body = Cursor::body_of(SHORT_VERSION, message)?;
    let root = read_at(&mut body, 1)?;
    body.end()?;
    Ok(root)
}

/// At a node: no byte, height, rule, place, mask.
fn read_at(body: &mut Cursor, level: usize) -> Read<Short> {
    let rule = body.byte()?;
    if level > MAX_TREE_HEIGHT {
        return Err(TOO_HIGH);
    }
    let count = premise_count(rule).ok_or(WRONG_NUMBER)?;
    let place = body.byte()?;
    let mask = if rule == TENSOR_INTRO { body.four()? } else { 0 };
    let premises = (0..count).map(|_| read_at(body, level + 1)).collect::<Read<Vec<_>>>()?;
    Ok(Short { step: Step { rule, place, mask }, premises })
}
