//! Counts by kind, as printed by `record`.

use crate::answer::{CONTEXT_MISMATCH, FOUND, INVALID_RULE, WRONG_PREMISE_COUNT};
use crate::records::{Asked, Session, TreeRecord};
use crate::tree::{self, rule_number, RULES, RULE_NAMES};
use lolli_core::Proof;

/// How often each rule's node fails, by error, and how far below the root.
pub fn trees(records: &[TreeRecord]) {
    let failing = |rule: usize, answer: u8| {
        let of = |record: &&TreeRecord| usize::from(record.verdict.rule) == rule && record.verdict.answer == answer;
        records.iter().filter(of).count()
    };
    let nodes = rule_nodes(records.iter().map(|record| &record.message[..]));
    let mismatches = |rule: usize| {
        let of =
            |record: &&TreeRecord| usize::from(record.strict.rule) == rule && record.strict.answer == CONTEXT_MISMATCH;
        records.iter().filter(of).count()
    };
    println!("trees accepted: {}", records.iter().filter(|record| record.verdict.is_accepted()).count());
    println!("trees accepted in strict mode: {}", records.iter().filter(|record| record.strict.is_accepted()).count());
    let legal = records.iter().filter(|record| record.strict.is_accepted());
    let legal = rule_nodes(legal.map(|record| &record.message[..]));
    println!("rule: nodes, 13, 14, 15 in strict mode, nodes of trees accepted in strict mode");
    for rule in 0..usize::from(RULES) {
        let (invalid, wrong_count) = (failing(rule, INVALID_RULE), failing(rule, WRONG_PREMISE_COUNT));
        let (name, all, mismatches, legal) = (RULE_NAMES[rule], nodes[rule], mismatches(rule), legal[rule]);
        println!("  {name}: {all}, {invalid}, {wrong_count}, {mismatches}, {legal}");
    }
    let below = records.iter().filter(|record| record.verdict.wrappers > 0).count();
    let most = records.iter().map(|record| record.verdict.wrappers).max().unwrap_or(0);
    println!("failing below the root: {below}, at most {most} steps");
    println!("highest: {}", records.iter().map(|record| record.depth).max().unwrap_or(0));
}

fn rule_nodes<'a>(messages: impl Iterator<Item = &'a [u8]>) -> [usize; RULES as usize] {
    let mut counts = [0; RULES as usize];
    for message in messages {
        count_rules(&tree::read(message).expect("within the limits of a reader"), &mut counts);
    }
    counts
}

fn count_rules(proof: &Proof, counts: &mut [usize; RULES as usize]) {
    counts[usize::from(rule_number(&proof.rule))] += 1;
    proof.premises.iter().for_each(|premise| count_rules(premise, counts));
}

/// One line a group.
pub fn sessions(name: &str, sessions: &[Session]) {
    let asked: Vec<&Asked> = sessions.iter().flat_map(|session| &session.asked).collect();
    let found = asked.iter().filter(|asked| asked.answer == FOUND).count();
    println!("sessions, {name}: {} sessions, {} questions, {found} found", sessions.len(), asked.len());
}

pub fn totals(sessions: &[&Session]) {
    let asked: Vec<&Asked> = sessions.iter().flat_map(|session| &session.asked).collect();
    let count = |test: fn(&&Asked) -> bool| asked.iter().filter(|asked| test(asked)).count();
    println!("sessions: {}, with the cache off: {}", sessions.len(), sessions.iter().filter(|s| !s.cache).count());
    println!("questions: {}, of kind 2: {}", asked.len(), count(|asked| asked.question[3] == 2));
    println!("found: {}", count(|asked| asked.answer == FOUND));
    println!(
        "with a hit: {}, the question itself: {}",
        count(|a| a.hits > 0),
        count(|a| a.hits == 1 && a.explored == 1)
    );
    println!("with a visit past the limit: {}", count(|a| a.reached > a.limit));
    println!("visits: {}, most in one question {}", sum(&asked, |a| a.explored), most(&asked, |a| a.explored));
    println!("failures stored: {}", asked.iter().map(|a| a.new_failures.len()).sum::<usize>());
    println!("most failures held: {}", most(&asked, |a| u32::from(a.held)));
    println!("deepest: {}", most(&asked, |a| u32::from(a.reached)));
    let small = |bound: u32| asked.iter().filter(|a| a.explored <= bound).count();
    println!("questions of up to 10 visits: {}, 60: {}, 300: {}", small(10), small(60), small(300));
    println!("longest question: {}", most(&asked, |a| a.question.len() as u32));
    println!("longest tree: {}", most(&asked, |a| a.tree.len() as u32));
    let nodes = rule_nodes(asked.iter().filter(|a| !a.tree.is_empty()).map(|a| &a.tree[..]));
    let shown: Vec<String> = (0..nodes.len()).map(|rule| format!("{} {}", RULE_NAMES[rule], nodes[rule])).collect();
    println!("nodes in found trees: {}", shown.join(", "));
}

fn sum(asked: &[&Asked], figure: fn(&Asked) -> u32) -> u32 {
    asked.iter().map(|a| figure(a)).sum()
}

fn most(asked: &[&Asked], figure: fn(&Asked) -> u32) -> u32 {
    asked.iter().map(|a| figure(a)).max().unwrap_or(0)
}
