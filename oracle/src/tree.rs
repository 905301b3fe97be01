//! Trees in bytes: version, length, one node. A node: rule, its argument, both zones, premise count, premises.

use crate::answer::{MAX_BODY, MAX_SEQUENT, MAX_TREE_HEIGHT, TOO_HIGH, TOO_LONG, TOO_WIDE, VERSION, WRONG_NUMBER};
use crate::cursor::{put_counted, Cursor, Read};
use crate::formula::{self, read_zone, write_zone};
use lolli_core::{Proof, Rule, Sequent};

pub const AXIOM: u8 = 0;
pub const CUT: u8 = 1;
pub const ONE_INTRO: u8 = 2;
pub const BOTTOM_INTRO: u8 = 3;
pub const TENSOR_INTRO: u8 = 4;
pub const PAR_INTRO: u8 = 5;
pub const TOP_INTRO: u8 = 6;
pub const WITH_INTRO: u8 = 7;
pub const PLUS_INTRO_LEFT: u8 = 8;
pub const PLUS_INTRO_RIGHT: u8 = 9;
pub const OF_COURSE_INTRO: u8 = 10;
pub const WHY_NOT_INTRO: u8 = 11;
pub const WEAKENING: u8 = 12;
pub const CONTRACTION: u8 = 13;
pub const DERELICTION: u8 = 14;
pub const FOCUS_POSITIVE: u8 = 15;
pub const FOCUS_NEGATIVE: u8 = 16;
pub const BLUR: u8 = 17;
pub const RULES: u8 = 18;

/// The names of the rules, by number.
pub const RULE_NAMES: [&str; RULES as usize] = [
    "Axiom",
    "Cut",
    "OneIntro",
    "BottomIntro",
    "TensorIntro",
    "ParIntro",
    "TopIntro",
    "WithIntro",
    "PlusIntroLeft",
    "PlusIntroRight",
    "OfCourseIntro",
    "WhyNotIntro",
    "Weakening",
    "Contraction",
    "Dereliction",
    "FocusPositive",
    "FocusNegative",
    "Blur",
];

pub fn rule_number(rule: &Rule) -> u8 {
    match rule {
        Rule::Axiom => AXIOM,
        Rule::Cut(_) => CUT,
        Rule::OneIntro => ONE_INTRO,
        Rule::BottomIntro => BOTTOM_INTRO,
        Rule::TensorIntro => TENSOR_INTRO,
        Rule::ParIntro => PAR_INTRO,
        Rule::TopIntro => TOP_INTRO,
        Rule::WithIntro => WITH_INTRO,
        Rule::PlusIntroLeft => PLUS_INTRO_LEFT,
        Rule::PlusIntroRight => PLUS_INTRO_RIGHT,
        Rule::OfCourseIntro => OF_COURSE_INTRO,
        Rule::WhyNotIntro => WHY_NOT_INTRO,
        Rule::Weakening => WEAKENING,
        Rule::Contraction => CONTRACTION,
        Rule::Dereliction => DERELICTION,
        Rule::FocusPositive(_) => FOCUS_POSITIVE,
        Rule::FocusNegative(_) => FOCUS_NEGATIVE,
        Rule::Blur => BLUR,
    }
}

/// The rule of a number that takes no argument.
pub fn plain_rule(number: u8) -> Option<Rule> {
    Some(match number {
        AXIOM => Rule::Axiom,
        ONE_INTRO => Rule::OneIntro,
        BOTTOM_INTRO => Rule::BottomIntro,
        TENSOR_INTRO => Rule::TensorIntro,
        PAR_INTRO => Rule::ParIntro,
        TOP_INTRO => Rule::TopIntro,
        WITH_INTRO => Rule::WithIntro,
        PLUS_INTRO_LEFT => Rule::PlusIntroLeft,
        PLUS_INTRO_RIGHT => Rule::PlusIntroRight,
        OF_COURSE_INTRO => Rule::OfCourseIntro,
        WHY_NOT_INTRO => Rule::WhyNotIntro,
        WEAKENING => Rule::Weakening,
        CONTRACTION => Rule::Contraction,
        DERELICTION => Rule::Dereliction,
        BLUR => Rule::Blur,
        _ => return None,
    })
}

pub fn sequent(linear: Vec<lolli_core::Formula>, unrestricted: Vec<lolli_core::Formula>) -> Sequent {
    Sequent { linear, unrestricted, focus: None }
}

/// The message; a body over 65,535 bytes is refused.
pub fn message(tree: &Proof) -> Read<Vec<u8>> {
    let mut body = Vec::new();
    write(tree, &mut body)?;
    let mut out = vec![VERSION];
    put_counted(&mut out, &body);
    Ok(out)
}

fn write(tree: &Proof, out: &mut Vec<u8>) -> Read<()> {
    out.push(rule_number(&tree.rule));
    match &tree.rule {
        Rule::Cut(cut) => formula::write(cut, out),
        Rule::FocusPositive(place) | Rule::FocusNegative(place) => {
            out.extend(u16::try_from(*place).expect("a place of two bytes").to_be_bytes());
        }
        _ => {}
    }
    write_zone(&tree.conclusion.linear, out);
    write_zone(&tree.conclusion.unrestricted, out);
    out.push(u8::try_from(tree.premises.len()).expect("at most 255 premises"));
    for premise in &tree.premises {
        write(premise, out)?;
    }
    if out.len() > MAX_BODY {
        return Err(TOO_LONG);
    }
    Ok(())
}

pub fn read(message: &[u8]) -> Read<Proof> {
    let mut body = Cursor::body(message)?;
    let tree = read_at(&mut body, 1)?;
    body.end()?;
    Ok(tree)
}

/// At a node: no byte, height, rule, argument, each zone's end and its formulas, width, premise count.
fn read_at(body: &mut Cursor, level: usize) -> Read<Proof> {
    let number = body.byte()?;
    if level > MAX_TREE_HEIGHT {
        return Err(TOO_HIGH);
    }
    let rule = read_rule(number, body)?;
    let linear = read_zone(body.counted()?)?;
    let unrestricted = read_zone(body.counted()?)?;
    if linear.len() + unrestricted.len() > MAX_SEQUENT {
        return Err(TOO_WIDE);
    }
    let count = body.byte()?;
    let premises = (0..count).map(|_| read_at(body, level + 1)).collect::<Read<Vec<_>>>()?;
    Ok(Proof { conclusion: sequent(linear, unrestricted), rule, premises })
}

fn read_rule(number: u8, body: &mut Cursor) -> Read<Rule> {
    match number {
        CUT => Ok(Rule::Cut(formula::read_next(body)?)),
        FOCUS_POSITIVE => Ok(Rule::FocusPositive(usize::from(body.two()?))),
        FOCUS_NEGATIVE => Ok(Rule::FocusNegative(usize::from(body.two()?))),
        _ => plain_rule(number).ok_or(WRONG_NUMBER),
    }
}

#[cfg(test)]
mod tests {
    use super::*;
    use crate::answer::{WRONG_LENGTH, WRONG_TAG};

    fn refusal(body: &[u8]) -> u8 {
        let mut message = vec![VERSION];
        put_counted(&mut message, body);
        read(&message).expect_err("refused")
    }

    /// Blur over Blur, with the given node on top of it all.
    fn chain(levels: usize, top: &[u8]) -> Vec<u8> {
        let mut body = [BLUR, 0, 0, 0, 0, 1].repeat(levels);
        body.extend(top);
        body
    }

    #[test]
    fn each_rule_round_trips() {
        for number in 0..RULES {
            let argument: &[u8] = match number {
                CUT => &[10, 4, 0, 1, 0],
                FOCUS_POSITIVE | FOCUS_NEGATIVE => &[0xFF, 0xFE],
                _ => &[],
            };
            let body = [&[number], argument, &[0, 1, 3, 0, 3, 5, 1, 2, 0]].concat();
            let mut wanted = vec![VERSION];
            put_counted(&mut wanted, &body);
            assert_eq!(message(&read(&wanted).unwrap()).unwrap(), wanted);
        }
    }

    #[test]
    fn zones_and_formulas_are_read_in_turn() {
        assert_eq!(refusal(&[2, 0, 1, 13]), WRONG_TAG);
        assert_eq!(refusal(&[2, 0, 2, 0]), WRONG_LENGTH);
        assert_eq!(refusal(&[18]), WRONG_NUMBER);
        assert_eq!(refusal(&[]), WRONG_LENGTH);
        assert_eq!(refusal(&[BLUR, 0, 0, 0, 0, 0, 0]), WRONG_LENGTH);
    }

    #[test]
    fn height_comes_before_the_rule() {
        let leaf = [BLUR, 0, 0, 0, 0, 0];
        let mut highest = vec![VERSION];
        put_counted(&mut highest, &chain(64, &leaf));
        assert_eq!(read(&highest).unwrap().depth(), 65);
        assert_eq!(refusal(&chain(65, &[18])), TOO_HIGH);
        assert_eq!(refusal(&chain(65, &[])), WRONG_LENGTH);
    }

    #[test]
    fn width_comes_before_the_premise_count() {
        let mut body = vec![BLUR, 0, 32];
        body.extend([0; 32]);
        body.extend([0, 0]);
        assert_eq!(refusal(&body), TOO_WIDE);
    }
}
