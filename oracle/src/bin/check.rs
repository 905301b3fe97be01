//! Confirms that the stored list is the Rust's: `check ROOT` asks the unchanged Rust again for every record,
//! and the model too, which also shows that each stored question stays within document 01's limits.

use oracle::ask::Asker;
use oracle::filter::{Caps, Filter};
use oracle::formula;
use oracle::lists;
use oracle::question::Question;
use oracle::records::{self, FormulaRecord, QuestionRecord, Session, TreeRecord};
use std::path::Path;
use std::process::exit;

/// Records compared and differing.
#[derive(Default)]
struct Tally {
    compared: usize,
    differing: usize,
}

impl Tally {
    fn compare(&mut self, same: bool) {
        self.compared += 1;
        self.differing += usize::from(!same);
    }

    fn print(&self, what: &str) -> usize {
        println!("{what}: {} compared, {} differing", self.compared, self.differing);
        self.differing
    }
}

fn main() {
    let Some(root) = std::env::args().nth(1) else {
        eprintln!("usage: check ROOT");
        exit(2);
    };
    let root = Path::new(&root);
    let mut differing = check_formulas(&lists::read(root, lists::FORMULAS, records::formulas));
    differing += check_questions(&lists::read(root, lists::QUESTIONS, records::questions));
    differing += check_trees(&lists::read(root, lists::TREES, records::trees));
    differing += check_sessions(&lists::read(root, lists::SESSIONS, records::sessions));
    exit(i32::from(differing > 0));
}

fn check_formulas(stored: &[FormulaRecord]) -> usize {
    let mut tally = Tally::default();
    for record in stored {
        tally.compare(formula::read(&record.formula).map(|f| FormulaRecord::of(&f)).as_ref() == Ok(record));
    }
    tally.print("formulas")
}

fn check_questions(stored: &[QuestionRecord]) -> usize {
    let mut tally = Tally::default();
    for record in stored {
        tally.compare(QuestionRecord::of(&record.question).ok().flatten().as_ref() == Some(record));
    }
    tally.print("questions made one-sided")
}

fn check_trees(stored: &[TreeRecord]) -> usize {
    let mut tally = Tally::default();
    for record in stored {
        tally.compare(TreeRecord::again(&record.message).as_ref() == Ok(record));
    }
    tally.print("trees")
}

fn check_sessions(stored: &[Session]) -> usize {
    let (mut rust, mut model) = (Tally::default(), Tally::default());
    for session in stored {
        let mut asker = Asker::new(session.cache);
        let mut filter = Filter::new(session.cache);
        for asked in &session.asked {
            let question = Question::read(&asked.question).expect("a stored question can be read");
            rust.compare(asker.ask(asked.limit, &question) == *asked);
            model.compare(filter.ask(asked.limit, &asked.question, Caps::LIMITS).as_ref() == Some(asked));
        }
    }
    println!("{} sessions", stored.len());
    rust.print("questions") + model.print("questions by the model")
}
