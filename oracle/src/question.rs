//! Questions in bytes: version, length, kind, two zones.

use crate::answer::{MAX_BODY, MAX_SEQUENT, TOO_WIDE, VERSION, WRONG_NUMBER};
use crate::cursor::{put_counted, Cursor, Read};
use crate::formula::{read_zone, write_zone};
use lolli_core::Formula;

#[derive(Clone, Debug, PartialEq, Eq)]
pub enum Question {
    /// Kind 1.
    OneSided { linear: Vec<Formula>, unrestricted: Vec<Formula> },
    /// Kind 2.
    TwoSided { antecedent: Vec<Formula>, succedent: Vec<Formula> },
}

impl Question {
    pub fn one_sided(linear: Vec<Formula>, unrestricted: Vec<Formula>) -> Self {
        Question::OneSided { linear, unrestricted }
    }

    pub fn two_sided(antecedent: Vec<Formula>, succedent: Vec<Formula>) -> Self {
        Question::TwoSided { antecedent, succedent }
    }

    /// The kind, and both zones in the order of the bytes.
    pub fn parts(&self) -> (u8, &[Formula], &[Formula]) {
        match self {
            Question::OneSided { linear, unrestricted } => (1, linear, unrestricted),
            Question::TwoSided { antecedent, succedent } => (2, antecedent, succedent),
        }
    }

    /// The message, or nothing if it is longer than its length field can say.
    pub fn message(&self) -> Option<Vec<u8>> {
        let (kind, first, second) = self.parts();
        if first.iter().chain(second).map(|f| crate::formula::bytes(f).len()).sum::<usize>() + 5 > MAX_BODY {
            return None;
        }
        let mut body = vec![kind];
        write_zone(first, &mut body);
        write_zone(second, &mut body);
        let mut out = vec![VERSION];
        put_counted(&mut out, &body);
        Some(out)
    }

    /// Reads a message: both zone lengths and the end before any formula, then the formulas, then the width.
    pub fn read(message: &[u8]) -> Read<Question> {
        let mut body = Cursor::body(message)?;
        let kind = body.byte()?;
        if kind != 1 && kind != 2 {
            return Err(WRONG_NUMBER);
        }
        let first = body.counted()?;
        let second = body.counted()?;
        body.end()?;
        let (first, second) = (read_zone(first)?, read_zone(second)?);
        if first.len() + second.len() > MAX_SEQUENT {
            return Err(TOO_WIDE);
        }
        Ok(match kind {
            1 => Question::one_sided(first, second),
            _ => Question::two_sided(first, second),
        })
    }
}

#[cfg(test)]
mod tests {
    use super::*;
    use crate::answer::{WRONG_LENGTH, WRONG_TAG};
    use crate::formula::{atom, neg_atom};

    fn refusal(message: &[u8]) -> u8 {
        Question::read(message).unwrap_err()
    }

    #[test]
    fn the_programs_example_round_trips() {
        let example = [1, 0, 0x12, 2, 0, 0x0A, 4, 0, 1, 0x0A, 4, 0, 1, 4, 0, 2, 0, 3, 4, 0, 2];
        let question = Question::two_sided(vec![atom(1), Formula::lolli(atom(1), atom(2))], vec![atom(2)]);
        assert_eq!(Question::read(&example), Ok(question.clone()));
        assert_eq!(question.message().unwrap(), example);
    }

    #[test]
    fn lengths_come_before_formulas() {
        assert_eq!(refusal(&[1, 0, 7, 1, 0, 1, 13, 0, 0, 0]), WRONG_LENGTH);
        assert_eq!(refusal(&[1, 0, 6, 1, 0, 1, 13, 0, 0]), WRONG_TAG);
        assert_eq!(refusal(&[1, 0, 8, 1, 0, 1, 6, 0, 2, 0, 0]), WRONG_LENGTH);
        assert_eq!(refusal(&[1, 0, 7, 1, 0, 2, 4, 0, 0, 0]), WRONG_LENGTH);
    }

    #[test]
    fn the_head_is_tested_in_order() {
        assert_eq!(refusal(&[2, 0]), WRONG_LENGTH);
        assert_eq!(refusal(&[2, 0, 9]), WRONG_NUMBER);
        assert_eq!(refusal(&[1, 0, 0]), WRONG_LENGTH);
        assert_eq!(refusal(&[1, 0, 1, 3]), WRONG_NUMBER);
        assert!(Question::read(&[1, 0, 5, 1, 0, 0, 0, 0]).is_ok());
    }

    #[test]
    fn width_comes_last() {
        let wide = |count| Question::one_sided(vec![Formula::One; count], vec![neg_atom(7)]).message().unwrap();
        assert!(Question::read(&wide(30)).is_ok());
        assert_eq!(refusal(&wide(31)), TOO_WIDE);
    }
}
