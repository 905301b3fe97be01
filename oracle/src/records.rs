//! The stored lists. Each is a sequence of records, big-endian, with no header. docs/ORACLE.md gives the formats.

use crate::cursor::{put_counted, put_long, Cursor, Read};
use crate::question::Question;
use crate::strict::strict_verdict;
use crate::verdict::{verdict, Verdict};
use crate::{formula, tree};
use lolli_core::{Formula, Proof, TwoSidedSequent};

/// formulas: a formula and what formula.rs makes of it.
#[derive(Clone, Debug, PartialEq, Eq)]
pub struct FormulaRecord {
    pub formula: Vec<u8>,
    pub negate: Vec<u8>,
    pub desugar: Vec<u8>,
    pub is_positive: u8,
    pub pretty: Vec<u8>,
    pub pretty_ascii: Vec<u8>,
}

impl FormulaRecord {
    pub fn of(f: &Formula) -> Self {
        FormulaRecord {
            formula: formula::bytes(f),
            negate: formula::bytes(&f.negate()),
            desugar: formula::bytes(&f.desugar()),
            is_positive: u8::from(f.is_positive()),
            pretty: f.pretty().into_bytes(),
            pretty_ascii: f.pretty_ascii().into_bytes(),
        }
    }

    pub fn write(&self, out: &mut Vec<u8>) {
        put_counted(out, &self.formula);
        put_counted(out, &self.negate);
        put_counted(out, &self.desugar);
        out.push(self.is_positive);
        put_counted(out, &self.pretty);
        put_counted(out, &self.pretty_ascii);
    }

    fn read(cursor: &mut Cursor) -> Read<Self> {
        Ok(FormulaRecord {
            formula: cursor.counted()?.to_vec(),
            negate: cursor.counted()?.to_vec(),
            desugar: cursor.counted()?.to_vec(),
            is_positive: cursor.byte()?,
            pretty: cursor.counted()?.to_vec(),
            pretty_ascii: cursor.counted()?.to_vec(),
        })
    }
}

/// questions: a two-sided question and what sequent.rs's `to_one_sided` makes of it.
#[derive(Clone, Debug, PartialEq, Eq)]
pub struct QuestionRecord {
    pub question: Vec<u8>,
    pub one_sided: Vec<u8>,
}

impl QuestionRecord {
    /// Nothing for a one-sided question.
    pub fn of(message: &[u8]) -> Read<Option<Self>> {
        let Question::TwoSided { antecedent, succedent } = Question::read(message)? else {
            return Ok(None);
        };
        let sequent = TwoSidedSequent::new(antecedent, succedent).to_one_sided();
        let one_sided = Question::one_sided(sequent.linear, sequent.unrestricted).message();
        let one_sided = one_sided.expect("negation keeps the length");
        Ok(Some(QuestionRecord { question: message.to_vec(), one_sided }))
    }

    pub fn write(&self, out: &mut Vec<u8>) {
        put_counted(out, &self.question);
        put_counted(out, &self.one_sided);
    }

    fn read(cursor: &mut Cursor) -> Read<Self> {
        Ok(QuestionRecord { question: cursor.counted()?.to_vec(), one_sided: cursor.counted()?.to_vec() })
    }
}

/// trees: a tree, its depth, the verdict on it, and that of strict mode, by the model.
#[derive(Clone, Debug, PartialEq, Eq)]
pub struct TreeRecord {
    pub message: Vec<u8>,
    pub depth: u16,
    pub verdict: Verdict,
    pub strict: Verdict,
}

impl TreeRecord {
    pub fn of(message: Vec<u8>, proof: &Proof) -> Self {
        TreeRecord { message, depth: proof.depth() as u16, verdict: verdict(proof), strict: strict_verdict(proof) }
    }

    /// The record of a tree message, asked anew.
    pub fn again(message: &[u8]) -> Read<Self> {
        Ok(Self::of(message.to_vec(), &tree::read(message)?))
    }

    pub fn write(&self, out: &mut Vec<u8>) {
        put_long(out, &self.message);
        out.extend(self.depth.to_be_bytes());
        self.verdict.write(out);
        self.strict.write(out);
    }

    fn read(cursor: &mut Cursor) -> Read<Self> {
        Ok(TreeRecord {
            message: long(cursor)?,
            depth: cursor.two()?,
            verdict: Verdict::read(cursor)?,
            strict: Verdict::read(cursor)?,
        })
    }
}

/// A recorded failure: its items as formulas in bytes, sorted by these bytes.
#[derive(Clone, Debug, PartialEq, Eq, PartialOrd, Ord, Hash)]
pub struct Failure {
    bytes: Vec<u8>,
}

impl Failure {
    pub fn of(mut items: Vec<Vec<u8>>) -> Self {
        items.sort();
        Failure::joined(&items)
    }

    fn joined(items: &[Vec<u8>]) -> Self {
        let mut bytes = vec![u8::try_from(items.len()).expect("at most 31 items")];
        items.iter().for_each(|item| put_counted(&mut bytes, item));
        Failure { bytes }
    }

    pub fn items(&self) -> Vec<Formula> {
        let mut cursor = Cursor::new(&self.bytes[1..]);
        let count = self.bytes[0];
        let item = |_| formula::read_item(cursor.counted().expect("as written")).expect("as written");
        (0..count).map(item).collect()
    }

    /// The items' bytes one after another, as a zone's body has them.
    pub fn formulas(&self) -> Vec<u8> {
        self.items().iter().flat_map(formula::bytes).collect()
    }

    fn read(cursor: &mut Cursor) -> Read<Self> {
        let count = cursor.byte()?;
        let items = (0..count).map(|_| Ok(cursor.counted()?.to_vec())).collect::<Read<Vec<_>>>()?;
        Ok(Failure::joined(&items))
    }
}

/// One question of a session and what was seen after it.
#[derive(Clone, Debug, PartialEq, Eq)]
pub struct Asked {
    pub limit: u8,
    pub question: Vec<u8>,
    pub answer: u8,
    pub explored: u32,
    pub hits: u32,
    pub reached: u8,
    pub tree: Vec<u8>,
    pub held: u16,
    pub new_failures: Vec<Failure>,
}

impl Asked {
    pub fn write(&self, out: &mut Vec<u8>) {
        out.push(self.limit);
        put_counted(out, &self.question);
        out.push(self.answer);
        out.extend(self.explored.to_be_bytes());
        out.extend(self.hits.to_be_bytes());
        out.push(self.reached);
        put_long(out, &self.tree);
        out.extend(self.held.to_be_bytes());
        out.extend((self.new_failures.len() as u16).to_be_bytes());
        self.new_failures.iter().for_each(|failure| out.extend(&failure.bytes));
    }

    /// The length of the record in bytes.
    pub fn length(&self) -> usize {
        let mut out = Vec::new();
        self.write(&mut out);
        out.len()
    }

    fn read(cursor: &mut Cursor) -> Read<Self> {
        Ok(Asked {
            limit: cursor.byte()?,
            question: cursor.counted()?.to_vec(),
            answer: cursor.byte()?,
            explored: cursor.four()?,
            hits: cursor.four()?,
            reached: cursor.byte()?,
            tree: long(cursor)?,
            held: cursor.two()?,
            new_failures: {
                let count = cursor.two()?;
                (0..count).map(|_| Failure::read(cursor)).collect::<Read<_>>()?
            },
        })
    }
}

/// sessions: questions that shared one prover.
#[derive(Clone, Debug, PartialEq, Eq)]
pub struct Session {
    pub cache: bool,
    pub asked: Vec<Asked>,
}

impl Session {
    pub fn write(&self, out: &mut Vec<u8>) {
        out.push(u8::from(self.cache));
        out.push(u8::try_from(self.asked.len()).expect("at most 255 questions"));
        self.asked.iter().for_each(|asked| asked.write(out));
    }

    fn read(cursor: &mut Cursor) -> Read<Self> {
        let cache = cursor.byte()? == 1;
        let count = cursor.byte()?;
        let asked = (0..count).map(|_| Asked::read(cursor)).collect::<Read<_>>()?;
        Ok(Session { cache, asked })
    }
}

fn long(cursor: &mut Cursor) -> Read<Vec<u8>> {
    let length = cursor.four()?;
    Ok(cursor.take(length as usize)?.to_vec())
}

/// All records of a file.
fn all<T>(bytes: &[u8], read: impl Fn(&mut Cursor) -> Read<T>) -> Read<Vec<T>> {
    let mut cursor = Cursor::new(bytes);
    let mut records = Vec::new();
    while !cursor.is_at_end() {
        records.push(read(&mut cursor)?);
    }
    Ok(records)
}

pub fn formulas(bytes: &[u8]) -> Read<Vec<FormulaRecord>> {
    all(bytes, FormulaRecord::read)
}

pub fn questions(bytes: &[u8]) -> Read<Vec<QuestionRecord>> {
    all(bytes, QuestionRecord::read)
}

pub fn trees(bytes: &[u8]) -> Read<Vec<TreeRecord>> {
    all(bytes, TreeRecord::read)
}

pub fn sessions(bytes: &[u8]) -> Read<Vec<Session>> {
    all(bytes, Session::read)
}

#[cfg(test)]
mod tests {
    use super::*;
    use crate::make::{settled, trees as made};

    #[test]
    fn sessions_are_read_as_written() {
        for (cache, asks) in settled::runs() {
            let session = crate::ask::session(cache, &asks);
            let mut bytes = Vec::new();
            session.write(&mut bytes);
            assert_eq!(sessions(&bytes), Ok(vec![session]));
            assert!(sessions(&bytes[..bytes.len() - 1]).is_err());
        }
    }

    #[test]
    fn trees_and_formulas_are_read_as_written() {
        let tree = TreeRecord::again(&tree::message(&made::settled()[0]).unwrap()).unwrap();
        let formula = FormulaRecord::of(&Formula::lolli(formula::atom(9), Formula::Bottom));
        let (mut tree_bytes, mut formula_bytes) = (Vec::new(), Vec::new());
        tree.write(&mut tree_bytes);
        formula.write(&mut formula_bytes);
        assert_eq!(trees(&tree_bytes), Ok(vec![tree]));
        assert_eq!(formulas(&formula_bytes), Ok(vec![formula]));
    }
}
