//! The part over short trees: every found tree shortened and expanded again where it was found, expanded elsewhere, and then one damaged call.

use oracle::answer::{MAX_FORMULAS, TOO_MANY_FORMULAS};
use oracle::formula::ATOM;
use oracle::make::steps;
use oracle::model::{Held, Memory};
use oracle::question::Question;
use oracle::random::Random;
use oracle::tree;
use scale::image::{is_well_formed, WORDS};
use scale::lent::Lent;
use scale::library::Shorting;
use scale::short::{damage, stands, there_and_back, walk, Agreed, Asked, Shortened};
use scale::tally::{Difference, Tally};
use scale::{bytes, calls};
use std::collections::hash_map::DefaultHasher;
use std::collections::HashSet;
use std::hash::{Hash, Hasher};

/// How many found trees are kept to be set against other questions.
const KEPT: usize = 512;
/// The names that fill a memory begin here.
const FILLING: u16 = 30_000;

/// One call as it is made in a damaged round.
struct Made {
    shorting: Shorting,
    question: Vec<u8>,
    message: Vec<u8>,
}

impl Made {
    fn asked(&self) -> Asked<'_> {
        Asked { shorting: self.shorting, question: &self.question, message: &self.message }
    }
}

pub struct Shorts {
    /// A memory apart from the one of the session, emptied now and then.
    office: Lent,
    kept: Vec<Shortened>,
    /// Questions asked last, found or not.
    asked: Vec<Vec<u8>>,
    /// Trees of legal steps, which the search's rules mostly do not build, with their conclusions as questions.
    legal: Vec<(Vec<u8>, Vec<u8>)>,
    seen: HashSet<u64>,
}

impl Shorts {
    pub fn new(seed: u64) -> Self {
        let with_question = |proof: &lolli_core::Proof| {
            let asked = Question::one_sided(proof.conclusion.linear.clone(), proof.conclusion.unrestricted.clone());
            Some((asked.message()?, tree::message(proof).ok()?))
        };
        let legal = steps::make(seed, 400, 2).iter().filter_map(with_question).collect();
        Shorts { office: Lent::fresh(), kept: vec![], asked: vec![], legal, seen: HashSet::new() }
    }

    /// How many found trees were not the same as one before.
    pub fn distinct(&self) -> usize {
        self.seen.len()
    }

    /// Keeps a question that was asked.
    pub fn asked(&mut self, random: &mut Random, question: &[u8]) {
        if self.asked.len() < KEPT {
            return self.asked.push(question.to_vec());
        }
        let place = random.below(KEPT);
        self.asked[place] = question.to_vec();
    }

    /// All calls of one found tree. The memory is the one that the search left; says whether it is still the same for library and model.
    pub fn found(
        &mut self,
        tally: &mut Tally,
        random: &mut Random,
        lent: &mut Lent,
        question: &[u8],
        tree: &[u8],
    ) -> bool {
        let short = match there_and_back(lent, question, tree) {
            Ok(short) => short,
            Err(difference) => {
                tally.count("short trees, there and back", Some(difference));
                return false;
            }
        };
        tally.count("short trees, there and back", None);
        tally.note("bytes of trees shortened", tree.len() as u64);
        tally.note("bytes of short trees", short.len() as u64);
        let found = Shortened { question: question.to_vec(), tree: tree.to_vec(), short };
        tally.count("short trees, expanded elsewhere", self.elsewhere(random, &found));
        let (kind, said) = self.damaged(random, &found);
        self.note(tally, kind, said);
        self.keep(random, found);
        true
    }

    fn note(&mut self, tally: &mut Tally, kind: &str, said: Result<(Shorting, u8), Difference>) {
        if let Ok((shorting, answer)) = &said {
            tally.note(&format!("short trees, damaged: {shorting:?} answers {answer:2}"), 1);
        } else {
            self.office = Lent::fresh();
        }
        tally.count(&format!("short trees, damaged: {kind}"), said.err());
    }

    fn keep(&mut self, random: &mut Random, found: Shortened) {
        let mut hasher = DefaultHasher::new();
        (&found.question, &found.tree).hash(&mut hasher);
        self.seen.insert(hasher.finish());
        if self.kept.len() < KEPT {
            self.kept.push(found);
        } else {
            let place = random.below(KEPT);
            self.kept[place] = found;
        }
    }

    /// The office's memory: emptied every few calls, so that most have to enter something.
    fn office(&mut self, random: &mut Random) -> &mut Lent {
        if random.once_in(4) || self.office.model.formulas().len() > MAX_FORMULAS - 200 {
            self.office = Lent::fresh();
        }
        &mut self.office
    }

    fn elsewhere(&mut self, random: &mut Random, found: &Shortened) -> Option<Difference> {
        let office = self.office(random);
        let asked = Asked { shorting: Shorting::Expand, question: &found.question, message: &found.short };
        match asked.of_both(office, |length| calls::room(random, length)) {
            Ok(Agreed { wanted, .. }) if wanted.as_ref() == Ok(&found.tree) => None,
            Ok(Agreed { answer: TOO_MANY_FORMULAS, .. }) => None,
            Ok(_) => Some(asked.differing("not the tree that was shortened", &self.office)),
            Err(difference) => {
                self.office = Lent::fresh();
                Some(difference)
            }
        }
    }

    /// One call with something wrong in it, or in a memory that is nearly full or not well-formed. Which call, and what both answered.
    fn damaged(
        &mut self,
        random: &mut Random,
        found: &Shortened,
    ) -> (&'static str, Result<(Shorting, u8), Difference>) {
        let (kind, made) = self.made(random, found);
        match random.below(8) {
            0 => {
                let made = if random.once_in(2) { made } else { undamaged(random, found) };
                return ("memory nearly full", nearly_full(random, &made));
            }
            1 if random.once_in(2) => return ("memory not well-formed", self.in_wrong_memory(random, &made)),
            _ => {}
        }
        let office = self.office(random);
        let said = made.asked().of_both(office, |length| calls::room(random, length));
        let stood = said.and_then(|agreed| match agreed.wanted {
            Ok(written) => stands(&mut self.office, made.asked(), &written).map_or(Ok(agreed.answer), Err),
            Err(_) => Ok(agreed.answer),
        });
        (kind, stood.map(|answer| (made.shorting, answer)))
    }

    fn made(&self, random: &mut Random, found: &Shortened) -> (&'static str, Made) {
        let Shortened { question, tree, short } = found.clone();
        let shorten = |question, message| Made { shorting: Shorting::Shorten, question, message };
        let expand = |question, message| Made { shorting: Shorting::Expand, question, message };
        let either = |random: &mut Random, question, tree, short| match random.below(2) {
            0 => shorten(question, tree),
            _ => expand(question, short),
        };
        let other = if self.kept.is_empty() { found } else { random.pick(&self.kept) };
        let any = random.pick(&self.asked).clone();
        match random.below(20) {
            0..=2 => ("short tree's bytes", expand(question, bytes::damaged(random, &short))),
            3 | 4 => ("tree's bytes", shorten(question, bytes::damaged(random, &tree))),
            5..=7 => ("places, masks and rules", expand(question, damage::step(random, &short))),
            8 | 9 => ("formulas exchanged", shorten(question, damage::exchanged(random, &tree))),
            10 | 11 => {
                let message = damage::nodes_changed(random, &tree).unwrap_or(tree);
                ("nodes changed", shorten(question, message))
            }
            12 => {
                let (tree, short) = (damage::higher(random, &tree, false), damage::higher(random, &short, true));
                ("levels put in", either(random, question, tree, short))
            }
            13 => ("of another question", either(random, question, other.tree.clone(), other.short.clone())),
            14 => ("for any question", either(random, any, tree, short)),
            15 => {
                let question = bytes::damaged(random, &question);
                ("question's bytes", either(random, question, tree, short))
            }
            16 => {
                let (question, tree) = random.pick(&self.legal).clone();
                ("legal steps of every rule", shorten(question, tree))
            }
            17 => {
                let question = if random.once_in(2) { walk::wide(random) } else { any };
                let message = walk::drawn(random, &question);
                ("steps drawn", expand(question, message))
            }
            18 if random.once_in(40) => {
                let (question, message) = walk::long(random);
                ("around 65,535 bytes", expand(question, message))
            }
            18 => ("steps drawn", expand(question.clone(), walk::drawn(random, &question))),
            _ => ("one for the other", either(random, question, short, tree)),
        }
    }

    fn in_wrong_memory(&self, random: &mut Random, made: &Made) -> Result<(Shorting, u8), Difference> {
        let mut words = self.office.image().to_vec();
        match random.below(4) {
            0 => words.resize(*random.pick(&[0, 1, WORDS - 1, WORDS + 1]), 0),
            1 => words[0] = random.between(1, 65_535) as u16,
            _ => {
                let held = 2 + 5 * usize::from(words[0]);
                words[random.below(held)] ^= 1 << random.below(16);
            }
        }
        if is_well_formed(&words) {
            let agreed = made.asked().of_both(&mut Lent::of(&words), |length| length)?;
            return Ok((made.shorting, agreed.answer));
        }
        let room = calls::room(random, made.message.len());
        made.asked().in_wrong_memory(&words, room).map_or(Ok((made.shorting, 12)), Err)
    }
}

/// Either call as it is made of a found tree.
fn undamaged(random: &mut Random, found: &Shortened) -> Made {
    let Shortened { question, tree, short } = found.clone();
    match random.below(2) {
        0 => Made { shorting: Shorting::Shorten, question, message: tree },
        _ => Made { shorting: Shorting::Expand, question, message: short },
    }
}

/// In a memory with room for some of what the call enters, none, or all; often for all but the last few, which stand for implications.
fn nearly_full(random: &mut Random, made: &Made) -> Result<(Shorting, u8), Difference> {
    let mut empty = Memory::fresh();
    let _ = made.asked().of_model(&mut empty);
    let entered = empty.formulas().len();
    let left = if random.once_in(2) { random.below(entered + 1) } else { entered.saturating_sub(random.below(6)) };
    let names = (0..(MAX_FORMULAS - left) as u16).map(|number| Held::Name(ATOM, FILLING + number));
    let mut lent = Lent::holding(Memory::holding(names.collect(), vec![]));
    let agreed = made.asked().of_both(&mut lent, |length| calls::room(random, length))?;
    Ok((made.shorting, agreed.answer))
}
