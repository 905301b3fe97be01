//! Short trees by family: the bytes of both forms, and the time of both calls, each in a fresh memory.

use crate::families::{shortened, LIMIT};
use crate::timing::best;
use oracle::answer::{FOUND, MAX_BUDGET};
use oracle::model::{Memory, Settings};
use oracle::question::Question;
use scale::image::WORDS;
use scale::library::{self, Shorting};
use scale::short::{Shortened, AMPLE};

/// The question's tree by the model, with the cache on or else off, and its short form.
fn shorten(name: &str, question: &Question) -> Shortened {
    let question = question.message().expect("a question fits its length field");
    let settings = |cache| Settings { limit: LIMIT, budget: MAX_BUDGET, cache, room: AMPLE };
    let mut replies = [true, false].into_iter().map(|cache| Memory::fresh().ask(&question, settings(cache)));
    let Some(reply) = replies.find(|reply| reply.answer == FOUND) else { panic!("{name}: no tree") };
    let short = Memory::fresh().shorten(&question, &reply.tree, AMPLE).expect("a found tree");
    Shortened { question, tree: reply.tree, short }
}

/// Seconds of `reset` and one call, which has to write what is wanted.
fn timed(shorting: Shorting, question: &[u8], message: &[u8], wanted: &[u8], rounds: u32) -> f64 {
    let (mut words, mut out) = (vec![0; WORDS], vec![0; AMPLE]);
    let mut call = || {
        library::reset(&mut words);
        library::short(shorting, question, message, &mut words, &mut out)
    };
    let said = call();
    let seconds = best(rounds, call);
    assert_eq!((said.answer, &out[..said.value]), (0, wanted), "{shorting:?}");
    seconds
}

/// One row a tree.
pub fn table(rounds: u32) {
    println!(
        "\n| tree of | full bytes | short bytes | full/short | shorten µs | expand µs |\n|---|---|---|---|---|---|"
    );
    for (name, question) in shortened() {
        let Shortened { question, tree, short } = shorten(name, &question);
        let to = timed(Shorting::Shorten, &question, &tree, &short, rounds);
        let back = timed(Shorting::Expand, &question, &short, &tree, rounds);
        let ratio = tree.len() as f64 / short.len() as f64;
        println!("| {name} | {} | {} | {ratio:.1} | {:.2} | {:.2} |", tree.len(), short.len(), 1e6 * to, 1e6 * back);
    }
}
