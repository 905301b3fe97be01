//! Strict mode, written from document 01: at each node the verifier's own test, which the Rust gives, then 15 unless the step is legal. The Rust has no such mode,
//! so these verdicts are a model's.

use crate::answer::CONTEXT_MISMATCH;
use crate::formula;
use crate::tree::rule_number;
use crate::verdict::{own_verdict, Verdict};
use lolli_core::{Formula, Proof, Rule};

/// The first node in preorder whose shape is wrong or whose step is not legal.
pub fn strict_verdict(tree: &Proof) -> Verdict {
    failing(tree, &mut 0, 0).unwrap_or_default()
}

fn failing(tree: &Proof, next: &mut u16, wrappers: u16) -> Option<Verdict> {
    let node = *next;
    *next += 1;
    let mismatch = Verdict { answer: CONTEXT_MISMATCH, rule: rule_number(&tree.rule), ..Verdict::default() };
    let own = own_verdict(tree).or((!is_legal(tree)).then_some(mismatch));
    if let Some(own) = own {
        return Some(Verdict { node, wrappers, ..own });
    }
    tree.premises.iter().find_map(|premise| failing(premise, next, wrappers + 1))
}

/// A zone as a multiset: the formulas' bytes in order.
type Bag = Vec<Vec<u8>>;

fn bag(formulas: Vec<Formula>) -> Bag {
    let mut bag: Bag = formulas.iter().map(formula::bytes).collect();
    bag.sort();
    bag
}

/// An implication at the top becomes a Par; inner ones stay.
fn spelled(f: &Formula) -> Formula {
    match f {
        Formula::Lolli(a, b) => Formula::par(a.negate(), (**b).clone()),
        _ => f.clone(),
    }
}

/// A linear zone, spelled out.
fn gamma(node: &Proof) -> Vec<Formula> {
    node.conclusion.linear.iter().map(spelled).collect()
}

/// Both zones of a premise are these, linear formulas spelled out.
fn concludes(premise: &Proof, linear: &[Formula], unrestricted: &[Formula]) -> bool {
    let linear = linear.iter().map(spelled).collect();
    bag(gamma(premise)) == bag(linear) && bag(premise.conclusion.unrestricted.clone()) == bag(unrestricted.to_vec())
}

/// The zone without the formula at a place.
fn without(zone: &[Formula], place: usize) -> Vec<Formula> {
    [&zone[..place], &zone[place + 1..]].concat()
}

/// The zone without one such formula, if it stands there.
fn less(zone: &[Formula], f: &Formula) -> Option<Vec<Formula>> {
    let place = zone.iter().position(|g| *g == spelled(f))?;
    Some(without(zone, place))
}

fn and(zone: &[Formula], more: &[&Formula]) -> Vec<Formula> {
    zone.iter().chain(more.iter().copied()).cloned().collect()
}

/// The first premise has a, the second b, what is left of both is the rest, and both have the same unrestricted zone.
fn is_shared_out(premises: [&Proof; 2], a: &Formula, b: &Formula, rest: &[Formula], theta: &[Formula]) -> bool {
    let keeps = |premise: &Proof| bag(premise.conclusion.unrestricted.clone()) == bag(theta.to_vec());
    let (Some(left), Some(right)) = (less(&gamma(premises[0]), a), less(&gamma(premises[1]), b)) else {
        return false;
    };
    premises.into_iter().all(keeps) && bag([left, right].concat()) == bag(rest.to_vec())
}

/// The step from the premises to the conclusion, of a node that the shape mode passes.
fn is_legal(node: &Proof) -> bool {
    let linear = gamma(node);
    match (&node.rule, &node.premises[..]) {
        (Rule::Axiom | Rule::OneIntro | Rule::TopIntro, []) => true,
        (Rule::Cut(cut), [p, q]) => is_shared_out([p, q], cut, &cut.negate(), &linear, &node.conclusion.unrestricted),
        (Rule::Weakening | Rule::Contraction | Rule::Dereliction, [p]) => {
            (0..node.conclusion.unrestricted.len()).any(|place| is_unrestricted_step(node, p, &linear, place))
        }
        _ => (0..linear.len()).any(|place| is_linear_step(node, &linear, place)),
    }
}

/// The unrestricted formula at a place is taken out, and none, two or one copies are added to the linear zone.
fn is_unrestricted_step(node: &Proof, premise: &Proof, linear: &[Formula], place: usize) -> bool {
    let theta = &node.conclusion.unrestricted;
    let f = &theta[place];
    let copies: &[&Formula] = match node.rule {
        Rule::Contraction => &[f, f],
        Rule::Dereliction => &[f],
        _ => &[],
    };
    concludes(premise, &and(linear, copies), &without(theta, place))
}

/// The step with the linear formula at a place as the principal one.
fn is_linear_step(node: &Proof, linear: &[Formula], place: usize) -> bool {
    let theta = &node.conclusion.unrestricted[..];
    let rest = without(linear, place);
    match (&node.rule, &linear[place], &node.premises[..]) {
        (Rule::BottomIntro, Formula::Bottom, [p]) => concludes(p, &rest, theta),
        (Rule::TensorIntro, Formula::Tensor(a, b), [p, q]) => is_shared_out([p, q], a, b, &rest, theta),
        (Rule::ParIntro, Formula::Par(a, b), [p]) => concludes(p, &and(&rest, &[a, b]), theta),
        (Rule::WithIntro, Formula::With(a, b), [p, q]) => {
            concludes(p, &and(&rest, &[a]), theta) && concludes(q, &and(&rest, &[b]), theta)
        }
        (Rule::PlusIntroLeft, Formula::Plus(a, _), [p]) => concludes(p, &and(&rest, &[a]), theta),
        (Rule::PlusIntroRight, Formula::Plus(_, b), [p]) => concludes(p, &and(&rest, &[b]), theta),
        (Rule::OfCourseIntro, Formula::OfCourse(a), [p]) => rest.is_empty() && concludes(p, &[(**a).clone()], theta),
        (Rule::WhyNotIntro, Formula::WhyNot(a), [p]) => concludes(p, &rest, &and(theta, &[a])),
        _ => false,
    }
}

#[cfg(test)]
mod tests {
    use super::*;
    use crate::formula::{atom, neg_atom};
    use crate::tree::sequent;

    fn node(rule: Rule, linear: &[Formula], unrestricted: &[Formula], premises: &[Proof]) -> Proof {
        Proof { conclusion: sequent(linear.to_vec(), unrestricted.to_vec()), rule, premises: premises.to_vec() }
    }

    fn answer(tree: &Proof) -> u8 {
        strict_verdict(tree).answer
    }

    fn top(linear: &[Formula]) -> Proof {
        node(Rule::TopIntro, &[linear, &[Formula::Top]].concat(), &[], &[])
    }

    fn implication() -> Formula {
        Formula::lolli(atom(1), atom(1))
    }

    #[test]
    fn an_implication_can_be_the_principal_formula_of_a_par() {
        let par = Formula::par(atom(2), atom(3));
        let premise = top(&[par.clone(), neg_atom(1), atom(1)]);
        let tree = node(Rule::ParIntro, &[par, implication(), Formula::Top], &[], &[premise]);
        assert_eq!(answer(&tree), 0);
        let alone = node(Rule::ParIntro, &[implication(), Formula::Top], &[], &[top(&[neg_atom(1), atom(1)])]);
        assert_eq!(answer(&alone), 13);
    }

    #[test]
    fn linear_implications_are_spelled_out_and_others_are_not() {
        let spelled = Formula::par(neg_atom(1), atom(1));
        let weakened = |theta: &[Formula], linear: Formula, premise: Formula| {
            let premise = node(Rule::TopIntro, &[premise, Formula::Top], &theta[1..], &[]);
            node(Rule::Weakening, &[Formula::Top, linear], theta, &[premise])
        };
        assert_eq!(answer(&weakened(&[atom(1)], spelled.clone(), implication())), 0);
        let inner = |f: Formula| Formula::of_course(f);
        assert_eq!(answer(&weakened(&[atom(1)], inner(spelled.clone()), inner(implication()))), 15);
        let premise = node(Rule::TopIntro, &[Formula::Top], std::slice::from_ref(&spelled), &[]);
        let tree = node(Rule::BottomIntro, &[Formula::Top, Formula::Bottom], &[implication()], &[premise]);
        assert_eq!(answer(&tree), 15);
    }

    #[test]
    fn a_cut_uses_plain_negation() {
        let cut = Formula::lolli(Formula::lolli(atom(1), atom(2)), atom(3));
        let dual = Formula::tensor(Formula::lolli(atom(1), atom(2)), neg_atom(3));
        let both = [Formula::Top, Formula::Top];
        let tree = node(Rule::Cut(cut.clone()), &both, &[], &[top(&[cut.clone()]), top(&[dual.clone()])]);
        assert_eq!(answer(&tree), 0);
        let swapped = node(Rule::Cut(cut.clone()), &both, &[], &[top(&[dual]), top(&[cut])]);
        assert_eq!(answer(&swapped), 15);
    }

    #[test]
    fn the_root_comes_first_and_blur_is_no_step() {
        let wrong = node(Rule::Axiom, &[atom(1)], &[], &[]);
        let tree = node(Rule::BottomIntro, &[Formula::Bottom], &[], std::slice::from_ref(&wrong));
        assert_eq!(strict_verdict(&tree), Verdict { answer: 15, rule: 3, ..Verdict::default() });
        let below = node(Rule::BottomIntro, &[Formula::Bottom, atom(1)], &[], &[wrong]);
        let wanted = Verdict { answer: 13, rule: 0, node: 1, wrappers: 1, ..Verdict::default() };
        assert_eq!(strict_verdict(&below), wanted);
        assert_eq!(answer(&node(Rule::Blur, &[Formula::Top], &[], &[top(&[])])), 15);
    }
}
