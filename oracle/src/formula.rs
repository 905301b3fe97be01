//! Formulas in bytes: a tag, then a two-byte name number or the parts in order. Name number n is the Rust atom `a{n}`.

use crate::answer::{MAX_FORMULA_HEIGHT, TOO_HIGH, WRONG_TAG};
use crate::cursor::{put_counted, Cursor, Read};
use lolli_core::Formula;

pub const ONE: u8 = 0;
pub const BOTTOM: u8 = 1;
pub const TOP: u8 = 2;
pub const ZERO: u8 = 3;
pub const ATOM: u8 = 4;
pub const NEG_ATOM: u8 = 5;
pub const TENSOR: u8 = 6;
pub const PAR: u8 = 7;
pub const WITH: u8 = 8;
pub const PLUS: u8 = 9;
pub const LOLLI: u8 = 10;
pub const OF_COURSE: u8 = 11;
pub const WHY_NOT: u8 = 12;

/// A formula taken apart once.
pub enum Shape<'a> {
    Unit(u8),
    Name(u8, u16),
    Two(u8, &'a Formula, &'a Formula),
    Under(u8, &'a Formula),
}

pub fn shape(formula: &Formula) -> Shape<'_> {
    match formula {
        Formula::One => Shape::Unit(ONE),
        Formula::Bottom => Shape::Unit(BOTTOM),
        Formula::Top => Shape::Unit(TOP),
        Formula::Zero => Shape::Unit(ZERO),
        Formula::Atom(name) => Shape::Name(ATOM, name_number(name)),
        Formula::NegAtom(name) => Shape::Name(NEG_ATOM, name_number(name)),
        Formula::Tensor(a, b) => Shape::Two(TENSOR, a, b),
        Formula::Par(a, b) => Shape::Two(PAR, a, b),
        Formula::With(a, b) => Shape::Two(WITH, a, b),
        Formula::Plus(a, b) => Shape::Two(PLUS, a, b),
        Formula::Lolli(a, b) => Shape::Two(LOLLI, a, b),
        Formula::OfCourse(a) => Shape::Under(OF_COURSE, a),
        Formula::WhyNot(a) => Shape::Under(WHY_NOT, a),
    }
}

fn name_number(name: &str) -> u16 {
    let digits = name.strip_prefix('a').expect("a name is `a` and a number");
    digits.parse().expect("a name number is at most 65,535")
}

pub fn unit(tag: u8) -> Formula {
    match tag {
        ONE => Formula::One,
        BOTTOM => Formula::Bottom,
        TOP => Formula::Top,
        ZERO => Formula::Zero,
        _ => panic!("tag {tag} is no unit"),
    }
}

pub fn name(tag: u8, number: u16) -> Formula {
    match tag {
        ATOM => Formula::atom(format!("a{number}")),
        NEG_ATOM => Formula::neg_atom(format!("a{number}")),
        _ => panic!("tag {tag} is no name"),
    }
}

pub fn two(tag: u8, a: Formula, b: Formula) -> Formula {
    match tag {
        TENSOR => Formula::tensor(a, b),
        PAR => Formula::par(a, b),
        WITH => Formula::with(a, b),
        PLUS => Formula::plus(a, b),
        LOLLI => Formula::lolli(a, b),
        _ => panic!("tag {tag} does not join two formulas"),
    }
}

pub fn under(tag: u8, a: Formula) -> Formula {
    match tag {
        OF_COURSE => Formula::of_course(a),
        WHY_NOT => Formula::why_not(a),
        _ => panic!("tag {tag} does not stand before one formula"),
    }
}

/// The atom of a name number.
pub fn atom(number: u16) -> Formula {
    name(ATOM, number)
}

pub fn neg_atom(number: u16) -> Formula {
    name(NEG_ATOM, number)
}

pub fn height(formula: &Formula) -> usize {
    match shape(formula) {
        Shape::Unit(_) | Shape::Name(_, _) => 1,
        Shape::Two(_, a, b) => 1 + height(a).max(height(b)),
        Shape::Under(_, a) => 1 + height(a),
    }
}

/// How many bytes it is written in.
pub fn length(formula: &Formula) -> usize {
    match shape(formula) {
        Shape::Unit(_) => 1,
        Shape::Name(_, _) => 3,
        Shape::Two(_, a, b) => 1 + length(a) + length(b),
        Shape::Under(_, a) => 1 + length(a),
    }
}

pub fn write(formula: &Formula, out: &mut Vec<u8>) {
    match shape(formula) {
        Shape::Unit(tag) => out.push(tag),
        Shape::Name(tag, number) => {
            out.push(tag);
            out.extend(number.to_be_bytes());
        }
        Shape::Two(tag, a, b) => {
            out.push(tag);
            write(a, out);
            write(b, out);
        }
        Shape::Under(tag, a) => {
            out.push(tag);
            write(a, out);
        }
    }
}

pub fn bytes(formula: &Formula) -> Vec<u8> {
    let mut out = Vec::new();
    write(formula, &mut out);
    out
}

/// One formula that is all of the bytes.
pub fn read(bytes: &[u8]) -> Read<Formula> {
    let mut cursor = Cursor::new(bytes);
    let formula = read_next(&mut cursor)?;
    cursor.end()?;
    Ok(formula)
}

/// An item of a failure. It may be one higher than a formula: ?A stands for an unrestricted A.
pub fn read_item(bytes: &[u8]) -> Read<Formula> {
    let mut cursor = Cursor::new(bytes);
    let formula = read_at(&mut cursor, 0)?;
    cursor.end()?;
    Ok(formula)
}

/// The next formula, its height counted from 1.
pub fn read_next(cursor: &mut Cursor) -> Read<Formula> {
    read_at(cursor, 1)
}

/// Where a formula is wanted: no byte, tag, height, cut number, in this order.
fn read_at(cursor: &mut Cursor, level: usize) -> Read<Formula> {
    let tag = cursor.byte()?;
    if tag > WHY_NOT {
        return Err(WRONG_TAG);
    }
    if level > MAX_FORMULA_HEIGHT {
        return Err(TOO_HIGH);
    }
    match tag {
        ONE..=ZERO => Ok(unit(tag)),
        ATOM | NEG_ATOM => Ok(name(tag, cursor.two()?)),
        TENSOR..=LOLLI => {
            let a = read_at(cursor, level + 1)?;
            let b = read_at(cursor, level + 1)?;
            Ok(two(tag, a, b))
        }
        _ => Ok(under(tag, read_at(cursor, level + 1)?)),
    }
}

/// A zone: a two-byte length and that many bytes of whole formulas.
pub fn write_zone(zone: &[Formula], out: &mut Vec<u8>) {
    let mut formulas = Vec::new();
    zone.iter().for_each(|formula| write(formula, &mut formulas));
    put_counted(out, &formulas);
}

/// The formulas of a zone whose length is known. A formula ends where its zone ends, though bytes follow.
pub fn read_zone(bytes: &[u8]) -> Read<Vec<Formula>> {
    let mut cursor = Cursor::new(bytes);
    let mut zone = Vec::new();
    while !cursor.is_at_end() {
        zone.push(read_next(&mut cursor)?);
    }
    Ok(zone)
}

#[cfg(test)]
mod tests {
    use super::*;
    use crate::answer::WRONG_LENGTH;

    fn tower(count: usize, end: &[u8]) -> Vec<u8> {
        let mut bytes = vec![OF_COURSE; count];
        bytes.extend(end);
        bytes
    }

    #[test]
    fn all_small_formulas_round_trip() {
        for f in crate::make::fragment::all(&[0, 65_535], 3).concat() {
            assert_eq!(read(&bytes(&f)), Ok(f));
        }
    }

    #[test]
    fn height_64_is_read_and_65_refused() {
        assert_eq!(height(&read(&tower(63, &[ONE])).unwrap()), 64);
        assert_eq!(read(&tower(64, &[ONE])), Err(TOO_HIGH));
    }

    #[test]
    fn refusals_come_in_the_stated_order() {
        assert_eq!(read(&tower(64, &[])), Err(WRONG_LENGTH));
        assert_eq!(read(&tower(64, &[13])), Err(WRONG_TAG));
        assert_eq!(read(&tower(64, &[ATOM, 0])), Err(TOO_HIGH));
        assert_eq!(read(&[ATOM, 0]), Err(WRONG_LENGTH));
        assert_eq!(read(&[ONE, 13]), Err(WRONG_LENGTH));
        assert_eq!(read(&[]), Err(WRONG_LENGTH));
    }
}
