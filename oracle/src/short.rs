//! A model of document 02's short trees, 11/12, apart from the library: `shorten` and `expand` over the model's memory. Sequents are formulas as they stand;
//! the memory is asked only to enter what a search enters. Lent words, and with them 12, stand in oracle/scale.

pub mod message;
pub mod steps;

use crate::answer::{MAX_BODY, MAX_SEQUENT, NO_STEP, SHORT_VERSION, TOO_LONG, TOO_WIDE, VERSION};
use crate::cursor::{put_counted, Read};
use crate::formula::{self, write_zone};
use crate::model::Memory;
use crate::question::Question;
use crate::tree;
use lolli_core::{Proof, Sequent, TwoSidedSequent};
use message::Short;

impl Memory {
    /// The short message of a tree that the search's rules build for the question. Order: the question's reading and its 7, the tree's reading;
    /// at each node in preorder 7, then 15; 10 last.
    pub fn shorten(&mut self, question: &[u8], tree: &[u8], room: usize) -> Read<Vec<u8>> {
        let (asked, tree) = self.enter_asked(question, || tree::read(tree))?;
        let mut body = Vec::new();
        self.shorten_node(&asked, &tree, &mut body)?;
        fitting(SHORT_VERSION, &body, room)
    }

    fn shorten_node(&mut self, sequent: &Sequent, node: &Proof, body: &mut Vec<u8>) -> Read<()> {
        let conclusion = self.spell_out(sequent)?;
        if conclusion != node.conclusion {
            return Err(NO_STEP);
        }
        let (step, premises) = steps::least(&conclusion, node).ok_or(NO_STEP)?;
        message::write(step, body);
        premises.iter().zip(&node.premises).try_for_each(|(premise, above)| self.shorten_node(premise, above, body))
    }

    /// The tree message that a short one stands for. Order: as above, with 6 for a premise after 15.
    pub fn expand(&mut self, question: &[u8], short: &[u8], room: usize) -> Read<Vec<u8>> {
        let (asked, short) = self.enter_asked(question, || message::read(short))?;
        let mut body = Body::default();
        self.expand_node(&asked, &short, &mut body)?;
        if body.length > MAX_BODY as u64 {
            return Err(TOO_LONG);
        }
        fitting(VERSION, &body.bytes, room)
    }

    fn expand_node(&mut self, sequent: &Sequent, node: &Short, body: &mut Body) -> Read<()> {
        let conclusion = self.spell_out(sequent)?;
        let premises = steps::premises(&conclusion, node.step).ok_or(NO_STEP)?;
        if premises.iter().any(|premise| premise.linear.len() + premise.unrestricted.len() > MAX_SEQUENT) {
            return Err(TOO_WIDE);
        }
        body.put(node.step.rule, &conclusion, premises.len());
        premises.iter().zip(&node.premises).try_for_each(|(premise, above)| self.expand_node(premise, above, body))
    }

    /// Reads the question and tests its 7, then reads the message: only then is anything entered.
    fn enter_asked<T>(&mut self, question: &[u8], message: impl FnOnce() -> Read<T>) -> Read<(Sequent, T)> {
        let question = Question::read(question)?;
        let before = self.formulas().len();
        self.enter_question(&question)?;
        let read = message();
        if read.is_err() {
            self.take_back(before);
        }
        Ok((to_one_sided(question), read?))
    }

    /// The sequent as a node concludes it. What stands for an implication is entered whole or not at all.
    fn spell_out(&mut self, sequent: &Sequent) -> Read<Sequent> {
        let (conclusion, par) = steps::spelled(sequent);
        if let Some(par) = par {
            self.enter_whole(&par)?;
        }
        Ok(conclusion)
    }
}

/// The sequent that a question asks for.
pub fn to_one_sided(question: Question) -> Sequent {
    match question {
        Question::OneSided { linear, unrestricted } => tree::sequent(linear, unrestricted),
        Question::TwoSided { antecedent, succedent } => TwoSidedSequent::new(antecedent, succedent).to_one_sided(),
    }
}

fn fitting(version: u8, body: &[u8], room: usize) -> Read<Vec<u8>> {
    if 3 + body.len() > room {
        return Err(TOO_LONG);
    }
    let mut out = vec![version];
    put_counted(&mut out, body);
    Ok(out)
}

/// A tree's body as it grows, written as far as it can be sent.
#[derive(Default)]
struct Body {
    length: u64,
    bytes: Vec<u8>,
}

impl Body {
    /// Rule, two zones, premise count: 6 bytes beside the formulas.
    fn put(&mut self, rule: u8, conclusion: &Sequent, premises: usize) {
        let formulas = conclusion.linear.iter().chain(&conclusion.unrestricted);
        self.length += 6 + formulas.map(|f| formula::length(f) as u64).sum::<u64>();
        if self.length > MAX_BODY as u64 {
            return;
        }
        self.bytes.push(rule);
        write_zone(&conclusion.linear, &mut self.bytes);
        write_zone(&conclusion.unrestricted, &mut self.bytes);
        self.bytes.push(premises as u8);
    }
}

#[cfg(test)]
mod tests;
