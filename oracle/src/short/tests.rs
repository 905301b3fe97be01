//! The cases by which document 02, 11/12 was read, and the least mask against trying them all.

use super::steps::{are_concluded, deal, least, premises, Step};
use super::*;
use crate::answer::*;
use crate::formula::{atom, neg_atom, ATOM, PLUS};
use crate::make::families::balanced;
use crate::make::fragment::FRAGMENTS;
use crate::make::sequents::{grown, question};
use crate::model::{Held, Settings};
use crate::random::Random;
use crate::strict::strict_verdict;
use crate::tree::{self, *};
use lolli_core::{Formula, Rule};

const AMPLE: usize = MAX_BODY + 3;
const USUAL: Settings = Settings { limit: 32, budget: 2_000, cache: true, room: AMPLE };

fn asked(linear: Vec<Formula>, unrestricted: Vec<Formula>) -> Vec<u8> {
    Question::one_sided(linear, unrestricted).message().unwrap()
}

fn example() -> Vec<u8> {
    let held = vec![atom(1), Formula::lolli(atom(1), atom(2))];
    Question::two_sided(held, vec![atom(2)]).message().unwrap()
}

fn found(question: &[u8]) -> Vec<u8> {
    let reply = Memory::fresh().ask(question, USUAL);
    assert_eq!(reply.answer, FOUND);
    reply.tree
}

fn node(rule: Rule, linear: Vec<Formula>, unrestricted: Vec<Formula>, premises: Vec<Proof>) -> Proof {
    Proof { conclusion: sequent(linear, unrestricted), rule, premises }
}

fn shortened(question: &[u8], tree: &Proof) -> Read<Vec<u8>> {
    Memory::fresh().shorten(question, &tree::message(tree).unwrap(), AMPLE)
}

fn expanded(question: &[u8], body: &[u8]) -> Read<Vec<u8>> {
    let mut message = vec![SHORT_VERSION];
    put_counted(&mut message, body);
    Memory::fresh().expand(question, &message, AMPLE)
}

#[test]
fn the_example_of_46_bytes_is_13() {
    let tree = found(&example());
    let short = [2, 0, 10, TENSOR_INTRO, 1, 0, 0, 0, 2, AXIOM, 0, AXIOM, 0];
    assert_eq!(tree.len(), 46);
    assert_eq!(Memory::fresh().shorten(&example(), &tree, AMPLE), Ok(short.to_vec()));
    assert_eq!(Memory::fresh().expand(&example(), &short, AMPLE), Ok(tree.clone()));
    assert_eq!(Memory::fresh().shorten(&example(), &tree, 12), Err(TOO_LONG));
    assert_eq!(Memory::fresh().expand(&example(), &short, 45), Err(TOO_LONG));
    assert_eq!(tree::read(&short).err(), Some(WRONG_NUMBER));
}

#[test]
fn a_greedy_deal_is_wrong() {
    assert_eq!(deal(&["x", "y", "x"], &["x"], &["y", "x"]), Some(6));
    assert_eq!(deal(&["x", "y", "x"], &["x"], &["x", "y"]), Some(3));
    assert_eq!(deal(&["x", "y"], &["x"], &["x"]), None);
    assert_eq!(deal(&["x"], &[], &[]), None);
    assert_eq!(deal::<u8>(&[], &[], &[]), Some(0));
    assert_eq!(deal(&[0; 30], &[0; 15], &[0; 15]), Some((1 << 15) - 1));
}

/// The first of all masks that deals so.
fn tried(items: &[u8], left: &[u8], right: &[u8]) -> Option<u32> {
    let share = |mask: u32, bit: u32| -> Vec<u8> {
        let dealt = items.iter().enumerate().filter(|(i, _)| (mask >> i) & 1 == bit);
        dealt.map(|(_, item)| *item).collect()
    };
    (0..1 << items.len()).find(|&mask| share(mask, 0) == left && share(mask, 1) == right)
}

#[test]
fn the_least_mask_is_the_first_of_all() {
    let mut random = Random::new(1);
    for _ in 0..20_000 {
        let names = random.between(1, 3);
        let items: Vec<u8> = (0..random.below(9)).map(|_| random.below(names) as u8).collect();
        let (mut left, mut right) = (vec![], vec![]);
        items.iter().for_each(|&item| if random.once_in(2) { left.push(item) } else { right.push(item) });
        if random.once_in(4) {
            random.shuffle(&mut left);
        }
        assert_eq!(deal(&items, &left, &right), tried(&items, &left, &right), "{items:?} {left:?} {right:?}");
    }
}

/// The first of all places and masks that makes the node a step.
fn tried_step(conclusion: &Sequent, node: &Proof) -> Option<Step> {
    let rule = rule_number(&node.rule);
    let masks = if rule == TENSOR_INTRO { 1 << conclusion.linear.len() } else { 1 };
    let all = (0..=255).flat_map(|place| (0..masks).map(move |mask| Step { rule, place, mask }));
    let mut fitting = all.filter(|&step| premises(conclusion, step).is_some_and(|made| are_concluded(&made, node)));
    fitting.next()
}

fn least_everywhere(tree: &Proof) {
    if tree.conclusion.linear.len() <= 8 {
        let step = least(&tree.conclusion, tree).map(|(step, _)| step);
        assert_eq!(step, tried_step(&tree.conclusion, tree));
    }
    tree.premises.iter().for_each(least_everywhere);
}

#[test]
fn found_trees_come_back_and_their_steps_are_the_least() {
    let mut random = Random::new(2);
    let mut count = 0;
    while count < 2_000 {
        let fragment = random.pick(&FRAGMENTS);
        let steps = random.between(2, 14);
        let drawn = grown(&mut random, fragment, &[1, 2], steps);
        let Some(question) = question(&mut random, &drawn).message() else { continue };
        let mut memory = Memory::fresh();
        let reply = memory.ask(&question, USUAL);
        if reply.answer != FOUND {
            continue;
        }
        let held = memory.formulas().len();
        let short = memory.shorten(&question, &reply.tree, AMPLE).unwrap();
        assert_eq!(memory.expand(&question, &short, AMPLE), Ok(reply.tree.clone()));
        assert_eq!(memory.formulas().len(), held, "the search has entered them");
        let tree = tree::read(&reply.tree).unwrap();
        assert_eq!(strict_verdict(&tree).answer, ACCEPTED);
        least_everywhere(&tree);
        count += 1;
    }
}

/// f, x, f with f = ⊤⊗1 and x = a1: left is f and x before ⊤, right is 1 alone.
#[test]
fn the_least_place_is_not_always_the_first_tensor() {
    let (f, x) = (Formula::tensor(Formula::Top, Formula::One), atom(1));
    let linear = vec![f.clone(), x.clone(), f.clone()];
    let left = node(Rule::TopIntro, vec![f, x, Formula::Top], vec![], vec![]);
    let right = node(Rule::OneIntro, vec![Formula::One], vec![], vec![]);
    let tree = node(Rule::TensorIntro, linear.clone(), vec![], vec![left, right]);
    let short = vec![2, 0, 10, TENSOR_INTRO, 2, 0, 0, 0, 0, TOP_INTRO, 2, ONE_INTRO, 0];
    assert_eq!(shortened(&asked(linear, vec![]), &tree), Ok(short));
}

#[test]
fn the_part_is_spelled_out_above() {
    let linear = vec![Formula::tensor(Formula::lolli(atom(1), atom(1)), Formula::One)];
    let question = asked(linear, vec![]);
    let tree = found(&question);
    let read = tree::read(&tree).unwrap();
    assert_eq!(read.premises[0].conclusion.linear, [Formula::par(neg_atom(1), atom(1))]);
    let short = vec![2, 0, 12, TENSOR_INTRO, 0, 0, 0, 0, 0, PAR_INTRO, 0, AXIOM, 0, ONE_INTRO, 0];
    assert_eq!(Memory::fresh().shorten(&question, &tree, AMPLE), Ok(short.clone()));
    assert_eq!(Memory::fresh().expand(&question, &short, AMPLE), Ok(tree));
    let mut unspelled = read;
    unspelled.premises[0].conclusion.linear = vec![Formula::lolli(atom(1), atom(1))];
    assert_eq!(shortened(&question, &unspelled), Err(NO_STEP));
}

#[test]
fn two_formulas_of_a_zone_exchanged_are_15() {
    let mut tree = tree::read(&found(&example())).unwrap();
    assert!(shortened(&example(), &tree).is_ok());
    tree.premises[0].conclusion.linear.swap(0, 1);
    assert_eq!(strict_verdict(&tree).answer, ACCEPTED);
    assert_eq!(shortened(&example(), &tree), Err(NO_STEP));
    tree.premises[0].conclusion.linear.swap(0, 1);
    tree.conclusion.linear.swap(0, 1);
    assert_eq!(shortened(&example(), &tree), Err(NO_STEP));
}

#[test]
fn what_the_rules_cannot_take_is_15() {
    let taken = |body: &[u8]| expanded(&example(), body).err();
    assert_eq!(taken(&[TENSOR_INTRO, 1, 0, 0, 0, 2, AXIOM, 0, AXIOM, 0]), None);
    let spare = [[0, 0, 0, 4], [0, 0, 0, 6], [128, 0, 0, 2], [0, 1, 0, 2]];
    for mask in spare {
        assert_eq!(taken(&[&[TENSOR_INTRO, 1], &mask[..], &[AXIOM, 0, AXIOM, 0]].concat()), Some(NO_STEP));
    }
    for (place, first, second) in [(0, 0, 0), (2, 0, 0), (3, 0, 0), (255, 0, 0), (1, 1, 0), (1, 0, 1)] {
        let body = [TENSOR_INTRO, place, 0, 0, 0, 2, AXIOM, first, AXIOM, second];
        assert_eq!(taken(&body), Some(NO_STEP));
    }
    assert_eq!(taken(&[AXIOM, 0]), Some(NO_STEP));
    let one = |body: &[u8]| expanded(&asked(vec![Formula::One], vec![atom(1)]), body).err();
    assert_eq!(one(&[ONE_INTRO, 0]), None);
    assert_eq!(one(&[ONE_INTRO, 1]), Some(NO_STEP));
    assert_eq!(one(&[WEAKENING, 0, ONE_INTRO, 0]), None);
    assert_eq!(one(&[WEAKENING, 1, ONE_INTRO, 0]), Some(NO_STEP));
    assert_eq!(expanded(&asked(vec![], vec![Formula::One]), &[DERELICTION, 0, ONE_INTRO, 0]), Err(NO_STEP));
}

#[test]
fn the_first_decomposable_formula_is_taken() {
    let linear = vec![Formula::par(atom(1), atom(2)), Formula::Top];
    let question = asked(linear.clone(), vec![]);
    let early = node(Rule::TopIntro, linear, vec![], vec![]);
    assert_eq!(strict_verdict(&early).answer, ACCEPTED);
    assert_eq!(shortened(&question, &early), Err(NO_STEP));
    assert_eq!(expanded(&question, &[TOP_INTRO, 1]), Err(NO_STEP));
    assert!(expanded(&question, &[PAR_INTRO, 0, TOP_INTRO, 0]).is_ok());
}

#[test]
fn places_and_masks_that_are_not_the_least_expand() {
    let question = asked(vec![Formula::plus(Formula::One, Formula::One)], vec![atom(1), atom(1)]);
    for place in [0, 1] {
        let tree = expanded(&question, &[WEAKENING, place, PLUS_INTRO_LEFT, 0, ONE_INTRO, 0]).unwrap();
        let least = Memory::fresh().shorten(&question, &tree, AMPLE).unwrap();
        assert_eq!(least[3..], [WEAKENING, 0, PLUS_INTRO_LEFT, 0, ONE_INTRO, 0]);
    }
}

#[test]
fn rules_without_short_form() {
    for rule in [CUT, FOCUS_POSITIVE, FOCUS_NEGATIVE, BLUR, RULES, 255] {
        assert_eq!(expanded(&example(), &[rule, 0]), Err(WRONG_NUMBER));
    }
    let top = || node(Rule::TopIntro, vec![Formula::Top], vec![], vec![]);
    let question = asked(vec![Formula::Top], vec![]);
    assert_eq!(shortened(&question, &node(Rule::Blur, vec![Formula::Top], vec![], vec![top()])), Err(NO_STEP));
    assert_eq!(shortened(&question, &node(Rule::TopIntro, vec![Formula::Top], vec![], vec![top()])), Err(NO_STEP));
    assert!(shortened(&question, &top()).is_ok());
}

#[test]
fn reading_in_order() {
    let read = |message: &[u8]| message::read(message).err();
    assert_eq!(read(&[1, 0]), Some(WRONG_LENGTH));
    assert_eq!(read(&[1, 0, 9]), Some(WRONG_NUMBER));
    assert_eq!(read(&[2, 0, 0]), Some(WRONG_LENGTH));
    assert_eq!(read(&[2, 0, 3, 2, 0]), Some(WRONG_LENGTH));
    assert_eq!(read(&[2, 0, 1, 18]), Some(WRONG_NUMBER));
    assert_eq!(read(&[2, 0, 1, 0]), Some(WRONG_LENGTH));
    assert_eq!(read(&[2, 0, 5, TENSOR_INTRO, 0, 0, 0, 0]), Some(WRONG_LENGTH));
    assert_eq!(read(&[2, 0, 3, 0, 0, 0]), Some(WRONG_LENGTH));
    let chain = |levels: usize, top: &[u8]| {
        let mut message = vec![SHORT_VERSION];
        put_counted(&mut message, &[&[BOTTOM_INTRO, 0].repeat(levels)[..], top].concat());
        read(&message)
    };
    assert_eq!(chain(64, &[ONE_INTRO, 0]), None);
    assert_eq!(chain(65, &[18]), Some(TOO_HIGH));
    assert_eq!(chain(65, &[]), Some(WRONG_LENGTH));
}

#[test]
fn memory_is_as_it_was_up_to_the_messages_reading() {
    let mut memory = Memory::fresh();
    assert_eq!(memory.expand(&example(), &[2, 0, 2, 18, 0], AMPLE), Err(WRONG_NUMBER));
    assert_eq!(memory.shorten(&example(), &[1, 0, 0], AMPLE), Err(WRONG_LENGTH));
    assert_eq!(memory.formulas().len(), 0);
    assert_eq!(memory.expand(&example(), &[2, 0, 2, AXIOM, 0], AMPLE), Err(NO_STEP));
    assert_eq!(memory.formulas().len(), 6);
}

/// A memory with room for so many formulas more.
fn with_room(left: usize) -> Memory {
    let names = (0..(MAX_FORMULAS - left) as u16).map(|n| Held::Name(ATOM, 1_000 + n));
    Memory::holding(names.collect(), vec![])
}

#[test]
fn an_implication_without_room_is_7_before_15() {
    let question = asked(vec![Formula::lolli(atom(1), atom(1))], vec![]);
    let tree = found(&question);
    for (left, answer, held) in [(1, 7, 0), (2, 7, 2), (3, 7, 2), (4, 0, 4)] {
        let mut memory = with_room(left);
        let said = memory.shorten(&question, &tree, AMPLE);
        assert_eq!(said.err().unwrap_or(0), answer, "room for {left}");
        assert_eq!(memory.formulas().len(), MAX_FORMULAS - left + held);
        let wrong = with_room(left).expand(&question, &[2, 0, 2, AXIOM, 0], AMPLE);
        assert_eq!(wrong, Err(if answer == 0 { NO_STEP } else { TOO_MANY_FORMULAS }));
        let unread = with_room(left).expand(&question, &[2, 0, 2, 18, 0], AMPLE);
        assert_eq!(unread, Err(if left == 1 { TOO_MANY_FORMULAS } else { WRONG_NUMBER }));
    }
}

#[test]
fn a_wide_premise_is_6_after_15() {
    let mut linear = vec![Formula::par(atom(1), Formula::Top)];
    linear.extend((0..30).map(atom));
    let wide = asked(linear.clone(), vec![]);
    assert_eq!(expanded(&wide, &[PAR_INTRO, 0, TOP_INTRO, 30]), Err(TOO_WIDE));
    assert_eq!(expanded(&wide, &[PAR_INTRO, 1, TOP_INTRO, 30]), Err(NO_STEP));
    linear.pop();
    let fits = asked(linear, vec![]);
    assert!(expanded(&fits, &[PAR_INTRO, 0, TOP_INTRO, 30]).is_ok());
}

/// A zone longer than its length field can say, so 10; a wrong step behind it is 15 all the same.
#[test]
fn a_long_tree_is_10_last() {
    let long = balanced(PLUS, 14, &|_| Formula::One);
    let question = asked(vec![Formula::plus(Formula::Top, Formula::One)], vec![long]);
    assert_eq!(expanded(&question, &[PLUS_INTRO_LEFT, 0, TOP_INTRO, 0]), Err(TOO_LONG));
    assert!(expanded(&question, &[WEAKENING, 0, PLUS_INTRO_LEFT, 0, TOP_INTRO, 0]).is_ok());
    assert_eq!(expanded(&question, &[CONTRACTION, 0, PLUS_INTRO_LEFT, 0, TOP_INTRO, 0]), Err(TOO_LONG));
    assert_eq!(expanded(&question, &[CONTRACTION, 0, PLUS_INTRO_LEFT, 0, TOP_INTRO, 1]), Err(NO_STEP));
}
