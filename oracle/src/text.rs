//! Reads back what `Formula::pretty` prints: the prover's cache keys are such strings.

use crate::formula::{name, two, under, ATOM, LOLLI, NEG_ATOM, OF_COURSE, PAR, PLUS, TENSOR, WHY_NOT, WITH};
use lolli_core::Formula;
use std::iter::Peekable;
use std::str::Chars;

/// The formula that prints as the text.
pub fn read(text: &str) -> Formula {
    let mut rest = text.chars().peekable();
    let formula = read_next(&mut rest);
    assert!(rest.next().is_none() && formula.pretty() == text, "not a printed formula: {text}");
    formula
}

fn read_next(rest: &mut Peekable<Chars>) -> Formula {
    match rest.next() {
        Some('1') => Formula::One,
        Some('0') => Formula::Zero,
        Some('⊥') => Formula::Bottom,
        Some('⊤') => Formula::Top,
        Some('!') => under(OF_COURSE, read_next(rest)),
        Some('?') => under(WHY_NOT, read_next(rest)),
        Some('a') => read_name(rest),
        Some('(') => read_two(rest),
        other => panic!("no printed formula begins with {other:?}"),
    }
}

fn read_name(rest: &mut Peekable<Chars>) -> Formula {
    let mut number = 0;
    while let Some(digit) = rest.peek().and_then(|c| c.to_digit(10)) {
        number = number * 10 + digit;
        rest.next();
    }
    let tag = if rest.next_if_eq(&'⊥').is_some() { NEG_ATOM } else { ATOM };
    name(tag, u16::try_from(number).expect("a name number is at most 65,535"))
}

fn read_two(rest: &mut Peekable<Chars>) -> Formula {
    let a = read_next(rest);
    let sign: String = rest.by_ref().take(3).collect();
    let tag = match sign.as_str() {
        " ⊗ " => TENSOR,
        " ⅋ " => PAR,
        " & " => WITH,
        " ⊕ " => PLUS,
        " ⊸ " => LOLLI,
        _ => panic!("no sign: {sign:?}"),
    };
    let b = read_next(rest);
    assert_eq!(rest.next(), Some(')'));
    two(tag, a, b)
}

#[cfg(test)]
mod tests {
    #[test]
    fn all_small_formulas_are_read_back() {
        for f in crate::make::fragment::all(&[0, 10], 3).concat() {
            assert_eq!(super::read(&f.pretty()), f);
        }
    }
}
