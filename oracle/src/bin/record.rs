//! Makes the stored lists: `record ROOT [SEED]` writes formulas, questions, trees and sessions to their places below the root, and prints what they hold.
//! The stored lists are those of seed 1. Another seed gives others, and so another comparison of the model with the Rust.

use oracle::lists;
use oracle::make::{formulas, sessions, trees};
use oracle::records::{FormulaRecord, QuestionRecord, Session, TreeRecord};
use oracle::report;
use oracle::tree;
use std::collections::HashSet;
use std::path::Path;
use std::process::exit;

fn main() {
    let Some(root) = std::env::args().nth(1) else {
        eprintln!("usage: record ROOT [SEED]");
        exit(2);
    };
    let seed = std::env::args().nth(2).map_or(1, |text| text.parse().expect("a seed is a number"));
    let root = Path::new(&root);

    let made = sessions::make(seed);
    lists::write(root, lists::FORMULAS, &formula_bytes(seed));
    lists::write(root, lists::QUESTIONS, &question_bytes(&made.groups));
    lists::write(root, lists::TREES, &tree_bytes(seed, &found_trees(&made.groups)));
    lists::write(root, lists::SESSIONS, &session_bytes(&made.groups));
    println!(
        "model: {} questions compared with the Rust, {} differing, {} kept out",
        made.compared, made.differing, made.kept_out
    );
    exit(i32::from(made.differing > 0));
}

fn formula_bytes(seed: u64) -> Vec<u8> {
    let mut out = Vec::new();
    for (name, formulas) in formulas::groups(seed) {
        let records: Vec<FormulaRecord> = formulas.iter().map(FormulaRecord::of).collect();
        println!("formulas, {name}: {}", records.len());
        records.iter().for_each(|record| record.write(&mut out));
    }
    out
}

/// Every two-sided question of a session, once.
fn question_bytes(groups: &[(String, Vec<Session>)]) -> Vec<u8> {
    let asked = groups.iter().flat_map(|(_, sessions)| sessions).flat_map(|session| &session.asked);
    let mut seen = HashSet::new();
    let messages = asked.map(|asked| &asked.question).filter(|message| seen.insert(*message));
    let records = messages.filter_map(|message| QuestionRecord::of(message).expect("a stored question can be read"));
    let records: Vec<QuestionRecord> = records.collect();
    println!("questions, two-sided: {}", records.len());
    let mut out = Vec::new();
    records.iter().for_each(|record| record.write(&mut out));
    out
}

/// Every tree found in a session, once, leaving out the few that are very long.
fn found_trees(groups: &[(String, Vec<Session>)]) -> Vec<Vec<u8>> {
    const LONGEST: usize = 3_000;
    let asked = groups.iter().flat_map(|(_, sessions)| sessions).flat_map(|session| &session.asked);
    let mut seen = HashSet::new();
    asked.map(|asked| &asked.tree).filter(|t| !t.is_empty() && t.len() <= LONGEST && seen.insert(*t)).cloned().collect()
}

fn tree_bytes(seed: u64, found: &[Vec<u8>]) -> Vec<u8> {
    let mut out = Vec::new();
    let mut all = Vec::new();
    let mut seen = HashSet::new();
    for (name, proofs) in trees::groups(seed, found) {
        let record = |proof| TreeRecord::of(tree::message(proof).expect("a tree fits its length field"), proof);
        let records = proofs.iter().map(record).filter(|record| seen.insert(record.message.clone()));
        let records: Vec<TreeRecord> = records.collect();
        println!("trees, {name}: {}", records.len());
        records.iter().for_each(|record| record.write(&mut out));
        all.extend(records);
    }
    report::trees(&all);
    out
}

fn session_bytes(groups: &[(String, Vec<Session>)]) -> Vec<u8> {
    let mut out = Vec::new();
    for (name, sessions) in groups {
        report::sessions(name, sessions);
        sessions.iter().for_each(|session| session.write(&mut out));
    }
    let all: Vec<&Session> = groups.iter().flat_map(|(_, sessions)| sessions).collect();
    report::totals(&all);
    out
}
