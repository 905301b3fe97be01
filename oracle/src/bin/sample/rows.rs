//! The rows of the sample, as the constructors of crates/judged/specs/Judge.antt take them: bytes as they are stored, so that the
//! definitions' readers and writers are judged with the rest.

use oracle::antt::{bytes, list};
use oracle::records::{Asked, FormulaRecord, Session, TreeRecord};

/// (session CACHE (asked ..) ∷ ..)
pub fn session(session: &Session) -> String {
    format!("session {} {}", session.cache, list(session.asked.iter().map(asked)))
}

/// (asked LIMIT QUESTION ANSWER EXPLORED HITS REACHED TREE HELD NEW)
fn asked(asked: &Asked) -> String {
    let new = list(asked.new_failures.iter().map(|failure| bytes(&failure.formulas())));
    let counters = format!("{} {} {} {}", asked.answer, asked.explored, asked.hits, asked.reached);
    format!("(asked {} {} {counters} {} {} {new})", asked.limit, bytes(&asked.question), bytes(&asked.tree), asked.held)
}

/// (formula-row FORMULA NEGATE DESUGAR IS_POSITIVE PRETTY PRETTY_ASCII)
pub fn formula(record: &FormulaRecord) -> String {
    format!(
        "formula-row {} {} {} {} {} {}",
        bytes(&record.formula),
        bytes(&record.negate),
        bytes(&record.desugar),
        record.is_positive,
        bytes(&record.pretty),
        bytes(&record.pretty_ascii)
    )
}

/// (tree-row TREE DEPTH ANSWER RULE NODE WRAPPERS EXPECTED GOT)
pub fn tree(record: &TreeRecord) -> String {
    let v = record.verdict;
    let verdict = format!("{} {} {} {} {} {}", v.answer, v.rule, v.node, v.wrappers, v.expected, v.got);
    format!("tree-row {} {} {verdict}", bytes(&record.message), record.depth)
}
