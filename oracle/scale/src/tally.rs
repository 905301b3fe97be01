//! Counts by kind, and the smallest input that differs.

use std::collections::BTreeMap;

/// An input for which the library says something else.
#[derive(Clone, Debug)]
pub struct Difference {
    pub what: String,
    /// The bytes of the input, or of the last question of a session.
    pub input: Vec<u8>,
    /// Settings, and questions before it.
    pub around: String,
}

impl Difference {
    fn size(&self) -> usize {
        self.input.len() + self.around.len()
    }
}

#[derive(Default)]
pub struct Tally {
    counts: BTreeMap<String, u64>,
    figures: BTreeMap<String, u64>,
    compared: u64,
    differing: u64,
    smallest: Option<Difference>,
}

impl Tally {
    /// One comparison of a kind.
    pub fn count(&mut self, kind: &str, found: Option<Difference>) {
        self.compared += 1;
        add(&mut self.counts, kind, 1);
        let Some(difference) = found else { return };
        self.differing += 1;
        if self.smallest.as_ref().is_none_or(|smallest| difference.size() < smallest.size()) {
            self.smallest = Some(difference);
        }
    }

    /// Something of interest that is no comparison of its own.
    pub fn note(&mut self, figure: &str, amount: u64) {
        add(&mut self.figures, figure, amount);
    }

    /// Prints all counts. Says whether nothing differs.
    pub fn print(&self) -> bool {
        self.counts.iter().for_each(|(kind, count)| println!("{kind}: {count}"));
        self.figures.iter().for_each(|(figure, amount)| println!("  {figure}: {amount}"));
        println!("{} compared, {} differing", self.compared, self.differing);
        if let Some(Difference { what, input, around }) = &self.smallest {
            println!("smallest: {what}\n{around}{}", hex(input));
        }
        self.differing == 0
    }
}

fn add(counts: &mut BTreeMap<String, u64>, key: &str, amount: u64) {
    match counts.get_mut(key) {
        Some(count) => *count += amount,
        None => drop(counts.insert(key.to_string(), amount)),
    }
}

pub fn hex(bytes: &[u8]) -> String {
    bytes.iter().map(|byte| format!("{byte:02X}")).collect::<Vec<_>>().join(" ")
}
