//! Memories that the entry's test takes longest over, written in words: full ones, and one that is wrong in its last word.

use oracle::answer::{MAX_FAILURES, MAX_FORMULAS, MAX_SEQUENT};
use oracle::formula::{ATOM, TENSOR};
use scale::image::{FAILURES, FAILURE_ORDER, ORDER, WORDS};

const NAMES: u16 = MAX_FORMULAS as u16 / 2;

/// What is held, the words, and whether they are well-formed.
pub fn memories() -> Vec<(&'static str, Vec<u16>, bool)> {
    let mut words = vec![0; WORDS];
    let mut memories = vec![("nothing held", words.clone(), true)];
    hold_formulas(&mut words);
    memories.push(("2,048 formulas", words.clone(), true));
    hold_failures(&mut words);
    memories.push(("2,048 formulas, 1,000 failures of 31 items", words.clone(), true));
    words[FAILURE_ORDER + MAX_FAILURES - 1] = 0;
    memories.push(("the same, the last order word wrong", words, false));
    memories
}

/// 1,024 names, and 1,024 products of a name with another.
fn hold_formulas(words: &mut [u16]) {
    let names = (0..NAMES).map(|name| [u16::from(ATOM), name, 0, 1, 3]);
    let products = (0..NAMES).map(|name| [u16::from(TENSOR), name, NAMES - 1 - name, 2, 7]);
    let rows: Vec<u16> = names.chain(products).flatten().collect();
    words[1..][..rows.len()].copy_from_slice(&rows);
    words[ORDER..].iter_mut().zip(0..2 * NAMES).for_each(|(word, number)| *word = number);
    words[0] = 2 * NAMES;
}

/// Failures that differ in the last item alone, in order.
fn hold_failures(words: &mut [u16]) {
    let failures = 0..MAX_FAILURES as u16;
    let record = |number: u16| {
        let mut record = [1; 1 + MAX_SEQUENT];
        record[0] = MAX_SEQUENT as u16;
        record[MAX_SEQUENT] = 2 * number + 3;
        record
    };
    let records: Vec<u16> = failures.clone().flat_map(record).collect();
    words[FAILURES + 1..][..records.len()].copy_from_slice(&records);
    words[FAILURE_ORDER..].iter_mut().zip(failures).for_each(|(word, number)| *word = number);
    words[FAILURES] = MAX_FAILURES as u16;
}
