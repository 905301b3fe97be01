//! Asks the unchanged verifier. Its error names no node: the node is found by walking along.

use crate::answer::{ACCEPTED, INVALID_RULE, WRONG_PREMISE_COUNT};
use crate::cursor::{Cursor, Read};
use crate::tree::{rule_number, sequent};
use lolli_core::{Proof, Rule};
use lolli_prove::{verify_proof, ProofError};

#[derive(Clone, Copy, Debug, Default, PartialEq, Eq)]
pub struct Verdict {
    pub answer: u8,
    /// Of the node that fails.
    pub rule: u8,
    /// In preorder, the root 0.
    pub node: u16,
    /// Layers of `PremiseFailed`.
    pub wrappers: u16,
    pub expected: u8,
    pub got: u8,
}

pub fn verdict(tree: &Proof) -> Verdict {
    let Err(error) = verify_proof(tree) else {
        return Verdict::default();
    };
    let (wrappers, own) = unwrapped(error);
    let (node, distance, failing) = first_failing(tree, &mut 0, 0).expect("some node fails on its own");
    assert_eq!(wrappers, distance, "wrappers are the steps from the root");
    let same = own_error(failing).expect("this node fails");
    assert_eq!(told(&same), told(&own), "the walk found the node that the verifier found");
    let (answer, expected, got) = told(&own);
    Verdict { answer, rule: rule_number(&failing.rule), node, wrappers, expected, got }
}

fn unwrapped(error: ProofError) -> (u16, ProofError) {
    match error {
        ProofError::PremiseFailed(inner) => {
            let (wrappers, own) = unwrapped(*inner);
            (wrappers + 1, own)
        }
        own => (0, own),
    }
}

/// Answer number, expected, got.
fn told(error: &ProofError) -> (u8, u8, u8) {
    match error {
        ProofError::InvalidRule { .. } => (INVALID_RULE, 0, 0),
        ProofError::WrongPremiseCount { expected, got } => (WRONG_PREMISE_COUNT, *expected as u8, *got as u8),
        ProofError::ContextMismatch { .. } => panic!("never made by the Rust"),
        ProofError::PremiseFailed(_) => panic!("unwrapped before"),
    }
}

/// The first node in preorder that fails on its own: its number, its distance from the root, the node.
fn first_failing<'a>(tree: &'a Proof, next: &mut u16, distance: u16) -> Option<(u16, u16, &'a Proof)> {
    let number = *next;
    *next += 1;
    if own_error(tree).is_some() {
        return Some((number, distance, tree));
    }
    tree.premises.iter().find_map(|premise| first_failing(premise, next, distance + 1))
}

/// The verdict on a node alone, as if at the root, if the verifier fails it.
pub fn own_verdict(node: &Proof) -> Option<Verdict> {
    let (answer, expected, got) = told(&own_error(node)?);
    Some(Verdict { answer, rule: rule_number(&node.rule), expected, got, ..Verdict::default() })
}

/// What the verifier says of a node whose premises are all accepted: Blur is, with any conclusion.
fn own_error(node: &Proof) -> Option<ProofError> {
    let accepted = Proof { conclusion: sequent(vec![], vec![]), rule: Rule::Blur, premises: vec![] };
    let alone = Proof {
        conclusion: node.conclusion.clone(),
        rule: node.rule.clone(),
        premises: vec![accepted; node.premises.len()],
    };
    verify_proof(&alone).err()
}

impl Verdict {
    pub fn is_accepted(&self) -> bool {
        self.answer == ACCEPTED
    }

    pub fn write(&self, out: &mut Vec<u8>) {
        out.extend([self.answer, self.rule]);
        out.extend(self.node.to_be_bytes());
        out.extend(self.wrappers.to_be_bytes());
        out.extend([self.expected, self.got]);
    }

    pub fn read(cursor: &mut Cursor) -> Read<Self> {
        Ok(Verdict {
            answer: cursor.byte()?,
            rule: cursor.byte()?,
            node: cursor.two()?,
            wrappers: cursor.two()?,
            expected: cursor.byte()?,
            got: cursor.byte()?,
        })
    }
}

#[cfg(test)]
mod tests {
    use super::*;
    use crate::formula::atom;
    use lolli_core::Formula;

    fn node(rule: Rule, linear: Vec<Formula>, premises: Vec<Proof>) -> Proof {
        Proof { conclusion: sequent(linear, vec![]), rule, premises }
    }

    #[test]
    fn the_settled_verdicts() {
        let one = node(Rule::OneIntro, vec![Formula::One], vec![]);
        let shape_first = node(Rule::OneIntro, vec![atom(1)], vec![one.clone()]);
        assert_eq!(verdict(&shape_first), Verdict { answer: 13, rule: 2, ..Verdict::default() });
        let count_first = node(Rule::TensorIntro, vec![atom(1)], vec![one.clone()]);
        let wanted = Verdict { answer: 14, rule: 4, expected: 2, got: 1, ..Verdict::default() };
        assert_eq!(verdict(&count_first), wanted);
        let below = node(Rule::Blur, vec![], vec![node(Rule::Blur, vec![], vec![one]), count_first]);
        assert_eq!(verdict(&below), Verdict { node: 3, wrappers: 1, ..wanted });
    }
}
