//! What the model says of the settled calls that crates/replay_sessions makes (limits.rt, middle.rt): answer, explored, hits, depth reached, formulas and failures held.

use lolli_core::Formula;
use oracle::formula::{atom, neg_atom};
use oracle::model::{Memory, Settings};
use oracle::question::Question;

const USUAL: Settings = Settings { limit: 32, budget: 16_384, cache: true, room: 65_539 };
const UNCACHED: Settings = Settings { cache: false, ..USUAL };

type Row = (u8, u32, u32, u8, usize, usize);

fn refused(answer: u8) -> Row {
    (answer, 0, 0, 0, 0, 0)
}

fn linear(zone: Vec<Formula>) -> Vec<u8> {
    Question::one_sided(zone, vec![]).message().unwrap()
}

fn next(memory: &mut Memory, message: &[u8], settings: Settings) -> Row {
    let reply = memory.ask(message, settings);
    let counters = reply.counters;
    let held = (memory.formulas().len(), memory.failures().len());
    (reply.answer, counters.explored, counters.hits, counters.reached, held.0, held.1)
}

fn alone(message: &[u8], settings: Settings) -> Row {
    next(&mut Memory::fresh(), message, settings)
}

fn pair() -> Vec<u8> {
    linear(vec![atom(1), neg_atom(1)])
}

fn choice(f: Formula) -> Formula {
    Formula::plus(Formula::Zero, f)
}

fn tower(levels: usize) -> Formula {
    (0..levels).fold(Formula::One, |f, _| Formula::of_course(f))
}

fn filled(count: u16) -> Memory {
    let mut memory = Memory::fresh();
    for name in 1000..1000 + count {
        memory.ask(&linear(vec![atom(name)]), UNCACHED);
    }
    memory
}

#[test]
fn reading() {
    let rows: [(&[u8], u8); 11] = [
        (b"", 3),
        (b"\x02\x00", 3),
        (b"\x02\x00\x01", 2),
        (b"\x01\x00\x01", 3),
        (b"\x01\x00\x00", 3),
        (b"\x01\x00\x05\x03\x00\x00\x00\x00", 2),
        (b"\x01\x00\x03\x01\x00\x00", 3),
        (b"\x01\x00\x06\x01\x00\x01\x0D\x00\x01", 3),
        (b"\x01\x00\x07\x01\x00\x01\x0D\x00\x00\x00", 3),
        (b"\x01\x00\x06\x01\x00\x01\x0D\x00\x00", 4),
        (b"\x01\x00\x06\x02\x00\x00\x00\x01\x04", 3),
    ];
    for (message, answer) in rows {
        assert_eq!(alone(message, USUAL), refused(answer), "{message:?}");
    }
    let wide = |count| linear((0..count).map(atom).collect());
    assert_eq!(alone(&wide(31), USUAL), (1, 1, 0, 0, 31, 1));
    assert_eq!(alone(&wide(32), USUAL), refused(6));
    let deep = Settings { limit: 64, ..USUAL };
    assert_eq!(alone(&linear(vec![tower(63)]), deep), (0, 64, 0, 63, 64, 0));
    assert_eq!(alone(&linear(vec![tower(64)]), deep), refused(5));
}

#[test]
fn settings() {
    let found = (0, 1, 0, 0, 2, 0);
    for (limit, budget, row) in [
        (64, 16_384, found),
        (65, 16_384, refused(11)),
        (0, 16_384, found),
        (32, 16_385, refused(11)),
        (32, 0, refused(11)),
        (32, 1, found),
    ] {
        assert_eq!(alone(&pair(), Settings { limit, budget, ..USUAL }), row);
    }
}

#[test]
fn full_formulas() {
    let mut memory = filled(2047);
    let (first, second) = (linear(vec![atom(1)]), linear(vec![atom(2)]));
    assert_eq!(next(&mut memory, &pair(), USUAL), (7, 0, 0, 0, 2047, 0));
    assert_eq!(next(&mut memory, &first, USUAL), (1, 1, 0, 0, 2048, 1));
    assert_eq!(next(&mut memory, &pair(), USUAL), (7, 0, 0, 0, 2048, 1));
    assert_eq!(next(&mut memory, &second, USUAL), (7, 0, 0, 0, 2048, 1));
    assert_eq!(next(&mut memory, &first, USUAL), (1, 1, 1, 0, 2048, 1));
}

#[test]
fn full_failures() {
    let mut memory = Memory::fresh();
    for name in 0..1000 {
        let held = usize::from(name) + 1;
        assert_eq!(next(&mut memory, &linear(vec![atom(name)]), USUAL), (1, 1, 0, 0, held, held));
    }
    let choice = linear(vec![choice(Formula::One)]);
    assert_eq!(next(&mut memory, &choice, USUAL), (9, 2, 0, 1, 1003, 1000));
    assert_eq!(next(&mut memory, &linear(vec![atom(7)]), USUAL), (1, 1, 1, 0, 1003, 1000));
    assert_eq!(next(&mut memory, &choice, UNCACHED), (0, 3, 0, 1, 1003, 1000));
}

#[test]
fn long_trees() {
    for (room, row) in [(15, (0, 1, 0, 0, 2, 0)), (14, (10, 1, 0, 0, 2, 0)), (0, (10, 1, 0, 0, 2, 0))] {
        assert_eq!(alone(&pair(), Settings { room, ..USUAL }), row);
    }
    let comb = (0..32).fold(Formula::Top, |f, _| Formula::with(Formula::Top, f));
    let body = |last| {
        let mut zone = vec![comb.clone()];
        zone.extend(vec![tower(63); 15]);
        zone.push(tower(last));
        linear(zone)
    };
    assert_eq!(alone(&body(23), USUAL), (0, 65, 0, 32, 97, 0));
    assert_eq!(Memory::fresh().ask(&body(23), USUAL).tree.len(), 3 + 65_471);
    assert_eq!(alone(&body(24), USUAL), (10, 65, 0, 32, 97, 0));
}

#[test]
fn refusals_in_the_middle() {
    let par = Formula::par(atom(1), atom(2));
    let beside = |f| linear([vec![f], (0..30).map(atom).collect()].concat());
    assert_eq!(alone(&beside(par.clone()), Settings { limit: 0, ..USUAL }), (6, 1, 0, 0, 31, 0));
    assert_eq!(alone(&beside(choice(par)), USUAL), (6, 3, 0, 1, 33, 1));
    let implication = Formula::lolli(atom(1), atom(1));
    assert_eq!(next(&mut filled(2045), &linear(vec![implication.clone()]), USUAL), (7, 1, 0, 0, 2047, 0));
    assert_eq!(next(&mut filled(2043), &linear(vec![choice(implication)]), USUAL), (7, 3, 0, 1, 2047, 1));
    let choice = linear(vec![choice(Formula::One)]);
    for (budget, room, row) in [
        (1, 65_539, (8, 1, 0, 0, 3, 0)),
        (2, 65_539, (8, 2, 0, 1, 3, 1)),
        (3, 65_539, (0, 3, 0, 1, 3, 1)),
        (3, 3, (10, 3, 0, 1, 3, 1)),
    ] {
        assert_eq!(alone(&choice, Settings { budget, room, ..USUAL }), row);
    }
}
