//! Trees, held in their byte form, and the verifier.
use crate::formula::{first_length, formulas_in, Formula};
use crate::question::{zone_at, Question};
use crate::{ffi, told, Refusal};

/// Where the root stands: behind version and length.
const ROOT: usize = 3;

/// The rules with an argument: a formula, or a two-byte number.
const CUT: u8 = 1;
const FOCUS_POSITIVE: u8 = 15;
const FOCUS_NEGATIVE: u8 = 16;

/// What the verifier tests at each node.
#[derive(Clone, Copy, Debug, PartialEq, Eq)]
pub enum Mode {
    /// The tests of lolli's `verify_proof`.
    Shape,
    /// Also that the step is legal: an accepted tree is a proof.
    Strict,
}

/// A node: its rule's number, its number in preorder, and the steps below the root.
#[derive(Clone, Copy, Debug, PartialEq, Eq)]
pub struct At {
    /// The rule's number.
    pub rule: u8,
    /// The node's number in preorder, the root's being 0.
    pub node: usize,
    /// The steps below the root.
    pub wrappers: usize,
}

/// What the verifier says.
#[derive(Clone, Copy, Debug, PartialEq, Eq)]
pub enum Verdict {
    /// Every node passes.
    Accepted,
    /// The rule does not fit its sequent (13).
    InvalidRule(At),
    /// Wrong premise count (14).
    WrongPremises {
        /// Where.
        at: At,
        /// How many premises the rule has.
        expected: usize,
        /// How many there are.
        got: usize,
    },
    /// Not a legal step (15).
    ContextMismatch(At),
}

/// A tree that the library reads. It need not be right: `verify` says.
#[derive(Clone, Debug, PartialEq, Eq, Hash)]
pub struct Tree(Vec<u8>);

impl Tree {
    /// The tree that these bytes are.
    pub fn from_bytes(bytes: Vec<u8>) -> Result<Self, Refusal> {
        let (answer, _) = ffi::depth(&bytes);
        told(answer, Tree(bytes))
    }

    /// Its byte form.
    pub fn as_bytes(&self) -> &[u8] {
        &self.0
    }

    /// Its depth, a leaf's being 1.
    pub fn depth(&self) -> usize {
        ffi::depth(&self.0).1
    }

    /// What the verifier says of it.
    pub fn verify(&self, mode: Mode) -> Verdict {
        let (answer, fault) = ffi::verify(&self.0, mode == Mode::Strict);
        let at = At {
            rule: fault.rule,
            node: fault.node,
            wrappers: fault.wrappers,
        };
        match answer {
            0 => Verdict::Accepted,
            13 => Verdict::InvalidRule(at),
            14 => Verdict::WrongPremises {
                at,
                expected: fault.expected,
                got: fault.got,
            },
            15 => Verdict::ContextMismatch(at),
            _ => unreachable!("the tree was read"),
        }
    }

    /// The zones that the root concludes.
    pub fn conclusion(&self) -> (Vec<Formula>, Vec<Formula>) {
        let (linear, rest) = zone_at(self.behind_argument());
        let (unrestricted, _) = zone_at(rest);
        (formulas_in(linear), formulas_in(unrestricted))
    }

    /// Whether the root concludes the question, formula by formula. An implication of the linear zone may stand there spelled out at its top, as a
    /// tree writes the first one that it takes apart; to strict mode both are the same.
    pub fn concludes(&self, question: &Question) -> bool {
        let (linear, unrestricted) = question.to_one_sided().zones();
        let (root, kept) = self.conclusion();
        let is_same = |(wanted, found): (&Formula, &Formula)| wanted == found || wanted.spelled_at_top().as_ref() == Ok(found);
        kept == unrestricted && root.len() == linear.len() && linear.iter().zip(&root).all(is_same)
    }

    fn behind_argument(&self) -> &[u8] {
        let behind_rule = &self.0[ROOT + 1..];
        match self.0[ROOT] {
            CUT => &behind_rule[first_length(behind_rule)..],
            FOCUS_POSITIVE | FOCUS_NEGATIVE => &behind_rule[2..],
            _ => behind_rule,
        }
    }
}
