//! Prints a sample of the stored list as a module of crates/judged/specs, where the definitions are computed and compared:
//! `sample ROOT sessions|formulas|trees COUNT [VISITS]`, so many questions or records, of at most so many visits each.

mod module;
mod rows;

use oracle::lists;
use oracle::records::{self, Session};
use std::path::Path;
use std::process::exit;

fn main() {
    let given: Vec<String> = std::env::args().skip(1).collect();
    let number = |place: usize| given.get(place).and_then(|text| text.parse::<usize>().ok());
    let (Some(root), Some(what), Some(count)) = (given.first(), given.get(1), number(2)) else {
        eprintln!("usage: sample ROOT sessions|formulas|trees COUNT [VISITS]");
        exit(2);
    };
    let visits = number(3).unwrap_or(60) as u32;
    let root = Path::new(root);
    let text = match what.as_str() {
        "sessions" => {
            let rows = session_rows(lists::read(root, lists::SESSIONS, records::sessions), count, visits);
            module::print(&module::SESSIONS, &rows)
        }
        "formulas" => {
            let rows =
                short(lists::read(root, lists::FORMULAS, records::formulas), |r| r.formula.len(), count, rows::formula);
            module::print(&module::FORMULAS, &rows)
        }
        "trees" => {
            let rows = short(lists::read(root, lists::TREES, records::trees), |r| r.message.len(), count, rows::tree);
            module::print(&module::TREES, &rows)
        }
        _ => {
            eprintln!("no such list: {what}");
            exit(2);
        }
    };
    print!("{text}");
}

/// Sessions spread over the whole file until they have so many questions, two thirds of them with more than a few visits.
fn session_rows(sessions: Vec<Session>, count: usize, visits: u32) -> Vec<String> {
    const LONGEST: usize = 300;
    const FEW: u32 = 5;
    let cheap = |s: &Session| s.asked.iter().all(|a| a.explored <= visits && a.question.len() <= LONGEST);
    let rich = |s: &Session| s.asked.iter().any(|a| a.explored > FEW);
    let (rich, plain): (Vec<_>, Vec<_>) = sessions.into_iter().filter(cheap).partition(rich);
    let mut rows = up_to(&rich, count - count / 3);
    rows.extend(up_to(&plain, count / 3));
    rows
}

fn up_to(sessions: &[Session], count: usize) -> Vec<String> {
    let mut left = count;
    let mut rows = Vec::new();
    for session in spread(sessions) {
        if session.asked.len() <= left {
            left -= session.asked.len();
            rows.push(rows::session(session));
        }
    }
    rows
}

/// Records that are not long, spread over the whole file.
fn short<T>(records: Vec<T>, length: fn(&T) -> usize, count: usize, row: fn(&T) -> String) -> Vec<String> {
    const LONGEST: usize = 200;
    let records: Vec<T> = records.into_iter().filter(|record| length(record) <= LONGEST).collect();
    spread(&records).take(count).map(row).collect()
}

/// All items once, in steps of a fixed size: neighbours in the file are much alike.
fn spread<T>(items: &[T]) -> impl Iterator<Item = &T> {
    const STEP: usize = 7919;
    let count = items.len();
    assert!(count == 0 || !count.is_multiple_of(STEP), "the step is prime, so it passes every item");
    (0..count).map(move |i| &items[i * STEP % count])
}
