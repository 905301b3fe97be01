//! Measures the library against the unchanged Rust: `bench [ROUNDS [FILE.svg [FAMILY]]]` prints tables and writes the plot; with a family, that one alone
//! and no plot. `bench ROUNDS short` prints the table of short trees alone. See docs/BENCHMARKS.md.

mod calls;
mod families;
mod memories;
mod plot;
mod searches;
mod shorts;
mod timing;

use calls::Timed;
use families::{costly as costly_families, small};
use oracle::make::costly;
use searches::{afresh, tree, Full, Measured};
use std::env;
use timing::geometric_mean;

/// Rounds of each side if the command does not say.
const ROUNDS: u32 = 15;

fn show(row: &Measured) {
    let cache = if row.cache { "on" } else { "off" };
    let rate = |seconds: f64| row.visits as f64 / seconds / 1e3;
    println!(
        "| {} | {cache} | {} | {:.2} | {:.0} | {:.0} | {:.3} |",
        row.name,
        row.visits,
        1e6 * row.ours,
        rate(row.ours),
        rate(row.rusts),
        row.ratio()
    );
}

fn searches(rounds: u32, full: &mut Full) -> Vec<Measured> {
    println!("| family | cache | visits | library µs | library visits/ms | Rust visits/ms | ratio |");
    println!("|---|---|---|---|---|---|---|");
    let mut rows = Vec::new();
    let mut keep = |row: Measured| {
        show(&row);
        rows.push(row);
    };
    for family in costly_families().iter().chain(&small()) {
        family.caches.iter().for_each(|&cache| keep(afresh(family, cache, rounds)));
    }
    for family in small() {
        family.caches.iter().for_each(|&cache| keep(full.measure(&family, cache, rounds)));
    }
    rows
}

fn show_timed(row: &Timed) {
    let rate = |seconds: f64| format!("{:.1}", row.bytes as f64 / seconds / 1e6);
    let rusts = row.rusts.map_or("".into(), rate);
    let ratio = row.rusts.map_or("".into(), |rusts| format!("{:.3}", rusts / row.ours));
    println!("| {} | {} | {:.2} | {} | {rusts} | {ratio} |", row.name, row.bytes, 1e6 * row.ours, rate(row.ours));
}

fn other_calls(rounds: u32, full: &Full) {
    println!("\n| call | bytes | library µs | library MB/s | Rust MB/s | ratio |\n|---|---|---|---|---|---|");
    for family in costly_families().iter().filter(|family| family.name.ends_with("found")) {
        calls::verifying(family.name, &tree(family), rounds).iter().for_each(show_timed);
    }
    for name in costly::NAMES {
        let proof = costly::tree(name).expect("a name of the list");
        let message = oracle::tree::message(&proof).expect("it fits");
        calls::verifying(name, &message, rounds).iter().for_each(show_timed);
    }
    for (name, formula) in calls::printed() {
        show_timed(&calls::printing(name, &formula, rounds));
        show_timed(&calls::reading_and_printing(name, &formula, rounds));
    }
    for (name, words, is_right) in memories::memories() {
        show_timed(&calls::memory_test(name, &words, is_right, rounds));
    }
    show_timed(&calls::memory_test("the full memory of the searches", full.words(), true, rounds));
    show_timed(&calls::resetting(&mut vec![0; full.words().len()], rounds));
}

fn mean_of(name: &str, rows: &[Measured], chosen: impl Fn(&Measured) -> bool) -> f64 {
    let mean = geometric_mean(rows.iter().filter(|row| chosen(row)).map(Measured::ratio));
    println!("geometric mean, {name}: {mean:.2}");
    mean
}

/// One family alone, for a profile. A memory is filled only where the family asks for a full one.
fn profiled(rounds: u32, name: &str) {
    let small = small();
    for family in costly_families().iter().chain(&small).filter(|family| family.name == name) {
        family.caches.iter().for_each(|&cache| show(&afresh(family, cache, rounds)));
    }
    for family in small.iter().filter(|family| format!("{}, full memory", family.name) == name) {
        let mut full = Full::after(&small);
        family.caches.iter().for_each(|&cache| show(&full.measure(family, cache, rounds)));
    }
}

fn main() {
    let rounds = env::args().nth(1).map_or(ROUNDS, |text| text.parse().expect("the number of rounds"));
    if let Some(name) = env::args().nth(3) {
        return profiled(rounds, &name);
    }
    if env::args().nth(2).as_deref() == Some("short") {
        return shorts::table(rounds);
    }
    let mut full = Full::after(&small());
    let rows = searches(rounds, &mut full);
    println!();
    let costly = mean_of("costly families", &rows, |row| !row.name.starts_with("small"));
    mean_of("small, fresh memory", &rows, |row| row.name.starts_with("small") && !row.name.ends_with("memory"));
    mean_of("small, full memory", &rows, |row| row.name.ends_with("memory"));
    mean_of("all", &rows, |_| true);
    let least = rows.iter().min_by(|a, b| a.ratio().total_cmp(&b.ratio())).expect("some family");
    println!("least: {} ({:.4})", least.name, least.ratio());
    other_calls(rounds, &full);
    shorts::table(rounds);
    if let Some(file) = env::args().nth(2) {
        std::fs::write(file, plot::svg(&rows, costly)).expect("the plot can be written");
    }
}
