//! The steps of the search's rules over formulas as they stand: an implication spelled out, the premises that a rule, a place and a mask give,
//! and the least place and mask that give the premises of a tree.

use crate::answer::MAX_SEQUENT;
use crate::tree::*;
use lolli_core::{Formula, Proof, Sequent};

#[derive(Clone, Copy, Debug, PartialEq, Eq)]
pub struct Step {
    pub rule: u8,
    /// The principal formula's place in its zone.
    pub place: u8,
    /// Of TensorIntro: bit i is 0 where the i-th other formula goes left.
    pub mask: u32,
}

/// The place of the formula that the search takes alone.
pub fn first_decomposable(sequent: &Sequent) -> Option<usize> {
    use Formula::*;
    sequent.linear.iter().position(|f| matches!(f, Par(..) | Bottom | Top | With(..) | WhyNot(_) | Lolli(..)))
}

/// The sequent as a node concludes it: an implication that is the first decomposable formula is spelled out at its top. With it the Par that stands there.
pub fn spelled(sequent: &Sequent) -> (Sequent, Option<Formula>) {
    let mut out = sequent.clone();
    let Some(place) = first_decomposable(sequent) else { return (out, None) };
    let Formula::Lolli(a, b) = &sequent.linear[place] else { return (out, None) };
    let par = Formula::par(a.negate(), (**b).clone());
    out.linear[place] = par.clone();
    (out, Some(par))
}

/// What a step of the search's rules leads to, if they can take it. The conclusion is spelled out.
pub fn premises(conclusion: &Sequent, step: Step) -> Option<Vec<Sequent>> {
    match first_decomposable(conclusion) {
        None => chosen(conclusion, step),
        Some(first) if first == usize::from(step.place) => decomposed(conclusion, step.rule, first),
        Some(_) => None,
    }
}

/// The first decomposable formula taken apart.
fn decomposed(conclusion: &Sequent, rule: u8, place: usize) -> Option<Vec<Sequent>> {
    let and = |parts: &[&Formula]| taken_out(conclusion, place, parts);
    Some(match (rule, &conclusion.linear[place]) {
        (TOP_INTRO, Formula::Top) => vec![],
        (BOTTOM_INTRO, Formula::Bottom) => vec![and(&[])],
        (PAR_INTRO, Formula::Par(a, b)) => vec![and(&[a, b])],
        (WITH_INTRO, Formula::With(a, b)) => vec![and(&[a]), and(&[b])],
        (WHY_NOT_INTRO, Formula::WhyNot(a)) => {
            let mut premise = and(&[]);
            premise.unrestricted.push((**a).clone());
            vec![premise]
        }
        _ => return None,
    })
}

/// A step where nothing is decomposable.
fn chosen(conclusion: &Sequent, step: Step) -> Option<Vec<Sequent>> {
    let place = usize::from(step.place);
    match step.rule {
        _ if conclusion.linear.is_empty() => None,
        AXIOM => (place == 0 && is_axiom(&conclusion.linear)).then(Vec::new),
        ONE_INTRO => (place == 0 && conclusion.linear == [Formula::One]).then(Vec::new),
        WEAKENING => released(conclusion, place, 0),
        CONTRACTION => released(conclusion, place, 2),
        DERELICTION => released(conclusion, place, 1),
        _ => focused(conclusion, step),
    }
}

/// A name and its negation, in either order.
fn is_axiom(linear: &[Formula]) -> bool {
    match linear {
        [Formula::Atom(a), Formula::NegAtom(b)] | [Formula::NegAtom(b), Formula::Atom(a)] => a == b,
        _ => false,
    }
}

fn focused(conclusion: &Sequent, step: Step) -> Option<Vec<Sequent>> {
    let place = usize::from(step.place);
    let put = |part: &Formula| {
        let mut premise = conclusion.clone();
        premise.linear[place] = part.clone();
        vec![premise]
    };
    match (step.rule, conclusion.linear.get(place)?) {
        (TENSOR_INTRO, Formula::Tensor(a, b)) => shared_out(conclusion, step, a, b),
        (PLUS_INTRO_LEFT, Formula::Plus(a, _)) => Some(put(a)),
        (PLUS_INTRO_RIGHT, Formula::Plus(_, b)) => Some(put(b)),
        (OF_COURSE_INTRO, Formula::OfCourse(a)) if conclusion.linear.len() == 1 => Some(put(a)),
        _ => None,
    }
}

/// Without the linear formula at a place, and with the parts at the end.
fn taken_out(conclusion: &Sequent, place: usize, parts: &[&Formula]) -> Sequent {
    let mut premise = conclusion.clone();
    premise.linear.remove(place);
    premise.linear.extend(parts.iter().copied().cloned());
    premise
}

/// Without the unrestricted formula at a place, and with so many linear copies of it.
fn released(conclusion: &Sequent, place: usize, copies: usize) -> Option<Vec<Sequent>> {
    let formula = conclusion.unrestricted.get(place)?;
    let mut premise = conclusion.clone();
    premise.linear.extend(std::iter::repeat_n(formula.clone(), copies));
    premise.unrestricted.remove(place);
    Some(vec![premise])
}

/// The others dealt by the mask, whose spare bits are 0, and a part behind each share.
fn shared_out(conclusion: &Sequent, step: Step, a: &Formula, b: &Formula) -> Option<Vec<Sequent>> {
    let others = taken_out(conclusion, usize::from(step.place), &[]).linear;
    if u64::from(step.mask) >> others.len() != 0 {
        return None;
    }
    let share = |bit: u32, part: &Formula| {
        let dealt = others.iter().enumerate().filter(|(i, _)| (step.mask >> i) & 1 == bit).map(|(_, f)| f);
        sequent(dealt.chain([part]).cloned().collect(), conclusion.unrestricted.clone())
    };
    Some(vec![share(0, a), share(1, b)])
}

/// The least place, then the least mask, with which the node is a step of the search's, and what the step leads to.
pub fn least(conclusion: &Sequent, node: &Proof) -> Option<(Step, Vec<Sequent>)> {
    let rule = rule_number(&node.rule);
    (0..MAX_SEQUENT).find_map(|place| {
        let mask = if rule == TENSOR_INTRO { least_mask(conclusion, place, node)? } else { 0 };
        let step = Step { rule, place: place as u8, mask };
        let premises = premises(conclusion, step)?;
        are_concluded(&premises, node).then_some((step, premises))
    })
}

/// Each premise, its own first decomposable implication spelled out, is what the tree above concludes.
pub fn are_concluded(premises: &[Sequent], node: &Proof) -> bool {
    premises.len() == node.premises.len()
        && premises.iter().zip(&node.premises).all(|(premise, above)| spelled(premise).0 == above.conclusion)
}

/// The least mask that deals the other formulas to both premises, each before its last formula. At a tensor no formula is decomposable, so that
/// each of the others stands above as it stands here.
fn least_mask(conclusion: &Sequent, place: usize, node: &Proof) -> Option<u32> {
    let [left, right] = &node.premises[..] else { return None };
    let (_, left) = left.conclusion.linear.split_last()?;
    let (_, right) = right.conclusion.linear.split_last()?;
    if place >= conclusion.linear.len() {
        return None;
    }
    let mut others: Vec<&Formula> = conclusion.linear.iter().collect();
    others.remove(place);
    deal(&others, &left.iter().collect::<Vec<_>>(), &right.iter().collect::<Vec<_>>())
}

/// The least mask by which the items are dealt to left and right, each keeping the order. A mask of x and more items is twice a mask of these, and x's bit;
/// so the least of both ways is taken, from the last item to the first.
pub fn deal<T: PartialEq>(items: &[T], left: &[T], right: &[T]) -> Option<u32> {
    if items.len() != left.len() + right.len() {
        return None;
    }
    // The least mask of what is left to deal, by how many have gone left and right.
    let mut least = vec![vec![None; right.len() + 2]; left.len() + 2];
    for l in (0..=left.len()).rev() {
        for r in (0..=right.len()).rev() {
            let Some(item) = items.get(l + r) else {
                least[l][r] = Some(0);
                continue;
            };
            let to_left = least[l + 1][r].filter(|_| left.get(l) == Some(item)).map(|mask: u32| 2 * mask);
            let to_right = least[l][r + 1].filter(|_| right.get(r) == Some(item)).map(|mask| 2 * mask + 1);
            least[l][r] = to_left.into_iter().chain(to_right).min();
        }
    }
    least[0][0]
}
