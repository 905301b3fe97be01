//! One question asked of both sides: in a fresh memory each time, or again and again in one that is full.

use crate::families::{Family, LIMIT};
use crate::timing::best_of_both;
use lolli_core::{Formula, Proof, Sequent, TwoSidedSequent};
use lolli_prove::{held, Prover};
use oracle::answer::{FOUND, MAX_BODY, MAX_BUDGET, MAX_FAILURES, MAX_FORMULAS, NO};
use oracle::formula::{atom, PLUS};
use oracle::question::Question;
use scale::image::{failure_count, WORDS};
use scale::library::{self, Proved, Settings};

/// The names that fill a memory begin here, above those of the questions.
const FILLING: u16 = 1000;

/// A question as each side takes it.
pub struct Asked {
    message: Vec<u8>,
    form: Form,
}

impl Asked {
    pub fn of(question: &Question) -> Self {
        Asked { message: question.message().expect("a question fits its length field"), form: Form::of(question) }
    }
}

/// What was measured: the visits, the same on both sides, and the seconds of each.
pub struct Measured {
    pub name: String,
    pub cache: bool,
    pub visits: u64,
    pub ours: f64,
    pub rusts: f64,
}

impl Measured {
    pub fn ratio(&self) -> f64 {
        self.rusts / self.ours
    }
}

/// The library with what it is lent.
struct Ours {
    words: Vec<u16>,
    work: Vec<u64>,
    out: Vec<u8>,
}

impl Ours {
    fn new() -> Self {
        Ours { words: vec![0; WORDS], work: vec![0; MAX_BUDGET as usize], out: vec![0; MAX_BODY + 3] }
    }

    fn prove(&mut self, asked: &Asked, cache: bool) -> Proved {
        let settings = Settings { limit: usize::from(LIMIT), budget: MAX_BUDGET as usize, cache };
        library::prove(&asked.message, settings, &mut self.words, &mut self.work, &mut self.out)
    }

    fn prove_afresh(&mut self, asked: &Asked, cache: bool) -> Proved {
        library::reset(&mut self.words);
        self.prove(asked, cache)
    }
}

fn fresh_prover(cache: bool) -> Prover {
    let mut prover = Prover::new(usize::from(LIMIT));
    prover.use_cache = cache;
    prover
}

/// The Rust's search, of a question that is already in the Rust's own form.
fn prove(prover: &mut Prover, form: &Form) -> Option<Proof> {
    match form {
        Form::One(sequent) => prover.prove(sequent),
        Form::Two(sequent) => prover.prove_two_sided(sequent),
    }
}

enum Form {
    One(Sequent),
    Two(TwoSidedSequent),
}

impl Form {
    fn of(question: &Question) -> Self {
        match question.clone() {
            Question::OneSided { linear, unrestricted } => Form::One(Sequent { unrestricted, ..Sequent::new(linear) }),
            Question::TwoSided { antecedent, succedent } => Form::Two(TwoSidedSequent::new(antecedent, succedent)),
        }
    }
}

/// Both sides have to have done the same; how many visits.
fn same_visits(name: &str, proved: &Proved, prover: &Prover, found: bool) -> u64 {
    let stats = prover.stats();
    let rusts = (if found { FOUND } else { NO }, stats.sequents_explored as u64, stats.cache_hits as u64);
    let ours = (proved.answer, u64::from(proved.counters.explored), u64::from(proved.counters.hits));
    assert_eq!(ours, rusts, "{name}: answer, visits and hits");
    ours.1
}

/// Every question from a fresh memory or prover.
pub fn afresh(family: &Family, cache: bool, rounds: u32) -> Measured {
    let asked: Vec<Asked> = family.questions.iter().map(Asked::of).collect();
    let mut library = Ours::new();
    let visits = asked.iter().map(|asked| {
        let mut prover = fresh_prover(cache);
        let found = prove(&mut prover, &asked.form).is_some();
        same_visits(family.name, &library.prove_afresh(asked, cache), &prover, found)
    });
    let visits = visits.sum();
    let (ours, rusts) = best_of_both(
        rounds,
        || asked.iter().map(|asked| library.prove_afresh(asked, cache).written).sum::<usize>(),
        || asked.iter().filter(|asked| prove(&mut fresh_prover(cache), &asked.form).is_some()).count(),
    );
    Measured { name: family.name.into(), cache, visits, ours, rusts }
}

/// A memory and a prover with 2,048 formulas and 1,000 failures.
pub struct Full {
    library: Ours,
    prover: Prover,
}

impl Full {
    /// The questions are asked first, so that all they enter and record is held.
    pub fn after(families: &[Family]) -> Self {
        let mut full = Full { library: Ours::new(), prover: fresh_prover(true) };
        for family in families {
            full.ask(&family.questions[0]);
        }
        full.fill_failures();
        full.fill_formulas();
        full
    }

    fn ask(&mut self, question: &Question) {
        let asked = Asked::of(question);
        let proved = self.library.prove(&asked, true);
        let found = prove(&mut self.prover, &asked.form).is_some();
        same_visits("filling", &proved, &self.prover, found);
        assert_eq!(failure_count(&self.library.words), held::keys(&self.prover).count());
    }

    /// A name alone fails and leaves one failure; a Plus of two such leaves one more.
    fn fill_failures(&mut self) {
        let missing = MAX_FAILURES - failure_count(&self.library.words);
        let names = (missing / 2) as u16;
        for name in FILLING..FILLING + names {
            let plus = oracle::formula::two(PLUS, atom(name), atom(FILLING));
            self.ask(&Question::one_sided(vec![plus], vec![]));
        }
        let mut name = FILLING + names;
        while failure_count(&self.library.words) < MAX_FAILURES {
            self.ask(&Question::one_sided(vec![atom(name)], vec![]));
            name += 1;
        }
    }

    fn fill_formulas(&mut self) {
        let mut name = 2 * FILLING;
        while usize::from(self.library.words[0]) < MAX_FORMULAS {
            self.ask(&Question::one_sided(vec![Formula::Top, atom(name)], vec![]));
            name += 1;
        }
    }

    /// One question again and again; it enters nothing and records nothing that is not held.
    pub fn measure(&mut self, family: &Family, cache: bool, rounds: u32) -> Measured {
        let asked = Asked::of(&family.questions[0]);
        self.prover.use_cache = cache;
        let proved = self.library.prove(&asked, cache);
        let found = prove(&mut self.prover, &asked.form).is_some();
        let visits = same_visits(family.name, &proved, &self.prover, found);
        let (library, prover) = (&mut self.library, &mut self.prover);
        let (ours, rusts) =
            best_of_both(rounds, || library.prove(&asked, cache).written, || prove(prover, &asked.form).is_some());
        Measured { name: format!("{}, full memory", family.name), cache, visits, ours, rusts }
    }

    pub fn words(&self) -> &[u16] {
        &self.library.words
    }
}

/// The tree of a family's first question, in bytes.
pub fn tree(family: &Family) -> Vec<u8> {
    let mut library = Ours::new();
    let proved = library.prove_afresh(&Asked::of(&family.questions[0]), false);
    library.out[..proved.written].to_vec()
}
