//! Asks the unchanged prover. One session is one `Prover`: its failures stay from question to question.

use crate::answer::{FOUND, NO};
use crate::question::Question;
use crate::records::{Asked, Failure, Session};
use crate::{formula, text, tree};
use lolli_core::{Proof, Sequent, TwoSidedSequent};
use lolli_prove::{held, Prover};
use std::collections::HashSet;

pub struct Asker {
    prover: Prover,
    cache: bool,
    seen: HashSet<Vec<String>>,
}

impl Asker {
    pub fn new(cache: bool) -> Self {
        let mut prover = Prover::new(0);
        prover.use_cache = cache;
        Asker { prover, cache, seen: HashSet::new() }
    }

    pub fn cache(&self) -> bool {
        self.cache
    }

    /// One question, and all that can be seen after it.
    pub fn ask(&mut self, limit: u8, question: &Question) -> Asked {
        self.prover.max_depth = usize::from(limit);
        let found = self.prove(question);
        let stats = self.prover.stats();
        let (explored, hits) = (stats.sequents_explored as u32, stats.cache_hits as u32);
        let reached = u8::try_from(stats.max_depth_reached).expect("at most the limit and 1");
        let new_failures = self.new_failures();
        Asked {
            limit,
            question: question.message().expect("a question fits its length field"),
            answer: if found.is_some() { FOUND } else { NO },
            explored,
            hits,
            reached,
            tree: found.map_or(vec![], |proof| tree::message(&proof).expect("kept out by the model")),
            held: u16::try_from(self.seen.len()).expect("at most 1,000"),
            new_failures,
        }
    }

    fn prove(&mut self, question: &Question) -> Option<Proof> {
        match question.clone() {
            Question::OneSided { linear, unrestricted } => {
                let sequent = Sequent { unrestricted, ..Sequent::new(linear) };
                self.prover.prove(&sequent)
            }
            Question::TwoSided { antecedent, succedent } => {
                self.prover.prove_two_sided(&TwoSidedSequent::new(antecedent, succedent))
            }
        }
    }

    /// Failures are never taken away, so the new ones are those not seen before.
    fn new_failures(&mut self) -> Vec<Failure> {
        let new: Vec<Vec<String>> = held::keys(&self.prover).filter(|key| !self.seen.contains(*key)).cloned().collect();
        let mut failures: Vec<Failure> = new.iter().map(|key| failure(key)).collect();
        failures.sort();
        self.seen.extend(new);
        failures
    }
}

/// The items of a key, read back as formulas: an unrestricted A was printed as ?A.
fn failure(key: &[String]) -> Failure {
    let items = key.iter().map(|item| formula::bytes(&text::read(item)));
    Failure::of(items.collect())
}

/// A whole session asked from a fresh prover.
pub fn session(cache: bool, questions: &[(u8, Question)]) -> Session {
    let mut asker = Asker::new(cache);
    let asked = questions.iter().map(|(limit, question)| asker.ask(*limit, question)).collect();
    Session { cache, asked }
}

#[cfg(test)]
mod tests {
    use super::*;
    use crate::formula::{atom, neg_atom};

    /// Document 01 asks to confirm it by runs.
    #[test]
    fn sequent_new_has_the_linear_zone_given_and_no_other() {
        let zone = vec![atom(1), neg_atom(2)];
        let made = Sequent::new(zone.clone());
        assert_eq!((made.linear, made.unrestricted, made.focus), (zone, vec![], None));
    }

    #[test]
    fn to_one_sided_negates_the_antecedent_and_keeps_the_order() {
        let made = TwoSidedSequent::new(vec![atom(1), atom(2)], vec![atom(3), atom(4)]).to_one_sided();
        assert_eq!(made.linear, [neg_atom(1), neg_atom(2), atom(3), atom(4)]);
        assert!(made.unrestricted.is_empty() && made.focus.is_none());
    }
}
