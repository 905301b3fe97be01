//! The calls from Rust: settled runs of document 01, refusals, and round trips.
use vakelumba::{Counters, Formula, Memory, Mode, Question, Refusal, Search, Searched, ShortRefusal, ShortTree, Tree, Verdict};

fn a(n: u16) -> Formula {
    Formula::atom(n)
}

fn not(n: u16) -> Formula {
    Formula::neg_atom(n)
}

fn search(limit: usize) -> Search {
    Search {
        limit,
        ..Search::default()
    }
}

fn asked(linear: &[Formula], unrestricted: &[Formula], limit: usize, memory: &mut Memory) -> (Searched, Counters) {
    let question = Question::one_sided(linear, unrestricted).unwrap();
    search(limit).prove(&question, memory)
}

fn counted(explored: usize, hits: usize, reached: usize) -> Counters {
    Counters { explored, hits, reached }
}

fn tree_of(said: Searched) -> Tree {
    match said {
        Searched::Found(tree) => tree,
        other => panic!("{other:?}"),
    }
}

#[test]
fn formulas() {
    let f = a(1).lolli(&a(2));
    assert_eq!(f.pretty_ascii().unwrap(), "(a1 -o a2)");
    assert_eq!(f.pretty().unwrap(), "(a1 ⊸ a2)");
    assert_eq!(f.desugar().unwrap(), not(1).par(&a(2)));
    assert_eq!(f.negate().unwrap(), a(1).tensor(&not(2)));
    assert_eq!(f.negate().unwrap().negate().unwrap(), not(1).par(&a(2)));
    assert_eq!(a(1).tensor(&a(2)).is_positive(), Ok(true));
    assert_eq!(f.is_positive(), Ok(false));
}

#[test]
fn formulas_refused() {
    let refused = |bytes: &[u8]| Formula::from_bytes(bytes.to_vec()).unwrap_err();
    assert_eq!(refused(&[]), Refusal::WrongLength);
    assert_eq!(refused(&[0, 13]), Refusal::WrongLength);
    assert_eq!(refused(&[13]), Refusal::WrongTag);
    let high = (1..64).fold(Formula::one(), |f, _| f.of_course());
    assert!(high.negate().is_ok());
    assert_eq!(high.of_course().negate(), Err(Refusal::TooHigh));
}

#[test]
fn questions() {
    let question = Question::two_sided(&[a(1), a(1).lolli(&a(2))], &[a(2)]).unwrap();
    let turned = question.to_one_sided();
    assert_eq!(turned.zones(), (vec![not(1), a(1).tensor(&not(2)), a(2)], vec![]));
    assert_eq!(turned.to_one_sided(), turned);
    assert_eq!(Question::from_bytes(question.as_bytes().to_vec()), Ok(question));
    assert_eq!(Question::from_bytes(vec![1, 0, 6, 3, 0, 0, 0, 0, 0]), Err(Refusal::WrongNumber));
    assert!(Question::one_sided(&vec![a(1); 31], &[]).is_ok());
    assert_eq!(Question::one_sided(&vec![a(1); 31], &[a(1)]), Err(Refusal::TooMany));
}

#[test]
fn the_program_of_document_01() {
    let question = Question::two_sided(&[a(1), a(1).lolli(&a(2))], &[a(2)]).unwrap();
    let (said, counters) = Search::default().prove(&question, &mut Memory::new());
    let tree = tree_of(said);
    assert_eq!(counters, counted(5, 0, 1));
    assert_eq!(tree.as_bytes().len(), 46);
    assert_eq!(tree.depth(), 2);
    assert_eq!(tree.verify(Mode::Shape), Verdict::Accepted);
    assert_eq!(tree.verify(Mode::Strict), Verdict::Accepted);
    assert!(tree.concludes(&question));
    assert!(!tree.concludes(&Question::two_sided(&[a(1), a(1).lolli(&a(2))], &[a(3)]).unwrap()));
}

#[test]
fn settled_runs() {
    let fresh = |linear: &[Formula], unrestricted: &[Formula], limit| asked(linear, unrestricted, limit, &mut Memory::new());
    assert_eq!(fresh(&[], &[], 32), (Searched::Nothing, counted(1, 0, 0)));
    assert_eq!(fresh(&[Formula::one().why_not()], &[], 32), (Searched::Nothing, counted(2, 0, 1)));
    assert_eq!(fresh(&[a(1).lolli(&a(1))], &[], 0), (Searched::Nothing, counted(3, 0, 1)));
    let (said, counters) = fresh(&[a(1).lolli(&a(1))], &[], 1);
    let tree = tree_of(said);
    assert_eq!((counters.explored, tree.depth()), (3, 2));
    assert_eq!(tree.conclusion(), (vec![not(1).par(&a(1))], vec![]));
    assert!(tree.concludes(&Question::one_sided(&[a(1).lolli(&a(1))], &[]).unwrap()));
    let twice = [a(1).lolli(&Formula::top()), a(1).lolli(&a(1))];
    let tree = tree_of(fresh(&twice, &[], 32).0);
    assert!(
        tree.concludes(&Question::one_sided(&twice, &[]).unwrap()),
        "one implication is spelled out, one is not"
    );
    let (said, counters) = fresh(&[a(1).tensor(&a(1))], &[not(1)], 32);
    assert_eq!((counters.explored, tree_of(said).depth()), (5, 3));
}

#[test]
fn failures_stay_until_reset() {
    let mut memory = Memory::new();
    let (par, top) = (a(1).par(&a(2)), Formula::top());
    assert_eq!(asked(&[par.clone(), top.clone()], &[], 0, &mut memory).0, Searched::Nothing);
    let (said, counters) = asked(&[top.clone(), par.clone()], &[], 0, &mut memory);
    assert_eq!((said, counters.hits), (Searched::Nothing, 1));
    assert_eq!(
        Memory::from_words(memory.as_words().to_vec()).map(|m| m.as_words().len()),
        Ok(45_290)
    );
    memory.reset();
    tree_of(asked(&[top, par], &[], 0, &mut memory).0);
}

#[test]
fn settings_and_memory_refused() {
    let question = Question::one_sided(&[a(1), not(1)], &[]).unwrap();
    let prove = |limit, budget| {
        Search {
            limit,
            budget,
            cache: true,
        }
        .prove(&question, &mut Memory::new())
    };
    for (limit, budget) in [(65, 1), (64, 0), (64, 16_385)] {
        assert_eq!(prove(limit, budget), (Searched::Refused(Refusal::WrongSetting), counted(0, 0, 0)));
    }
    tree_of(prove(64, 16_384).0);
    tree_of(prove(0, 1).0);
    assert_eq!(Memory::from_words(vec![1; 45_290]).err(), Some(Refusal::WrongMemory));
    assert_eq!(Memory::from_words(vec![0; 10]).err(), Some(Refusal::WrongMemory));
}

#[test]
fn verdicts() {
    // OneIntro over a1 with one premise: invalid. TensorIntro with one premise and no tensor: wrong premise count.
    let leaf = [2, 0, 1, 0, 0, 0, 0];
    let tree = |rule: u8| {
        let node = [&[rule, 0, 3, 4, 0, 1, 0, 0, 1][..], &leaf].concat();
        Tree::from_bytes([&[1, 0, node.len() as u8], &node[..]].concat()).unwrap()
    };
    assert!(matches!(tree(2).verify(Mode::Shape), Verdict::InvalidRule(at) if at.rule == 2 && at.node == 0));
    assert!(matches!(
        tree(4).verify(Mode::Strict),
        Verdict::WrongPremises { expected: 2, got: 1, .. }
    ));
    assert_eq!(tree(17).verify(Mode::Shape), Verdict::Accepted);
    assert!(matches!(tree(17).verify(Mode::Strict), Verdict::ContextMismatch(at) if at.rule == 17 && at.wrappers == 0));
    assert_eq!(Tree::from_bytes(vec![1, 0, 0]), Err(Refusal::WrongLength));
}

/// a1, a1 -o a2 |- a2, and its tree.
fn example() -> (Question, Tree) {
    let question = Question::two_sided(&[a(1), a(1).lolli(&a(2))], &[a(2)]).unwrap();
    let (said, _) = Search::default().prove(&question, &mut Memory::new());
    (question, tree_of(said))
}

fn short(body: &[u8]) -> ShortTree {
    ShortTree::from_bytes([&[2, 0, body.len() as u8], body].concat())
}

#[test]
fn short_trees_come_back() {
    let (question, tree) = example();
    let made = Memory::new().shorten(&question, &tree).unwrap();
    assert_eq!(tree.as_bytes().len(), 46);
    assert_eq!(made, short(&[4, 1, 0, 0, 0, 2, 0, 0, 0, 0]));
    assert_eq!(made.as_bytes().len(), 13);
    let mut office = Memory::new();
    assert_eq!(office.expand(&question, &made), Ok(tree.clone()));
    assert_eq!(office.expand(&question, &made), Ok(tree));
    assert_eq!(Tree::from_bytes(made.as_bytes().to_vec()), Err(Refusal::WrongNumber));
}

#[test]
fn an_implication_is_spelled_out_above() {
    let question = Question::one_sided(&[a(1).lolli(&a(1)).tensor(&Formula::one())], &[]).unwrap();
    let (said, _) = Search::default().prove(&question, &mut Memory::new());
    let tree = tree_of(said);
    let made = Memory::new().shorten(&question, &tree).unwrap();
    assert_eq!(made, short(&[4, 0, 0, 0, 0, 0, 5, 0, 0, 0, 2, 0]));
    let back = Memory::new().expand(&question, &made).unwrap();
    assert_eq!((back.verify(Mode::Strict), back == tree), (Verdict::Accepted, true));
}

#[test]
fn steps_of_no_search_are_refused() {
    let (question, tree) = example();
    let other = Question::two_sided(&[a(1), a(1).lolli(&a(2))], &[a(3)]).unwrap();
    let mut memory = Memory::new();
    assert_eq!(memory.shorten(&other, &tree), Err(ShortRefusal::NoStep));
    let mut taken = |body: &[u8]| memory.expand(&question, &short(body)).map(|t| t == tree);
    assert_eq!(taken(&[4, 1, 0, 0, 0, 2, 0, 0, 0, 0]), Ok(true));
    assert_eq!(taken(&[4, 1, 0, 0, 0, 6, 0, 0, 0, 0]), Err(ShortRefusal::NoStep), "a spare bit");
    assert_eq!(taken(&[4, 1, 128, 0, 0, 2, 0, 0, 0, 0]), Err(ShortRefusal::NoStep), "a spare bit");
    assert_eq!(
        taken(&[4, 1, 0, 0, 0, 2, 0, 1, 0, 0]),
        Err(ShortRefusal::NoStep),
        "a place at Axiom"
    );
    assert_eq!(taken(&[4, 0, 0, 0, 0, 2, 0, 0, 0, 0]), Err(ShortRefusal::NoStep), "no tensor there");
    assert_eq!(
        taken(&[1, 0]),
        Err(ShortRefusal::Refused(Refusal::WrongNumber)),
        "Cut has no short form"
    );
    assert_eq!(taken(&[0]), Err(ShortRefusal::Refused(Refusal::WrongLength)));
    let old = ShortTree::from_bytes(tree.as_bytes().to_vec());
    assert_eq!(memory.expand(&question, &old), Err(ShortRefusal::Refused(Refusal::WrongNumber)));
}
