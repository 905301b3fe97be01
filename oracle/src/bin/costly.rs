//! Writes a list of one costly tree so many times, for the program that replays trees: `costly NAME COUNT > FILE`.

use oracle::make::costly;
use oracle::records::TreeRecord;
use oracle::tree;
use std::io::Write;
use std::process::exit;

fn main() {
    let name = std::env::args().nth(1).unwrap_or_default();
    let count = std::env::args().nth(2).and_then(|text| text.parse::<usize>().ok());
    let (Some(proof), Some(count)) = (costly::tree(&name), count) else {
        eprintln!("usage: costly NAME COUNT, a name of {}", costly::NAMES.join(", "));
        exit(2);
    };
    let message = tree::message(&proof).expect("within the limits");
    eprintln!("{name}: a message of {} bytes", message.len());
    let mut record = Vec::new();
    TreeRecord::of(message, &proof).write(&mut record);
    std::io::stdout().write_all(&record.repeat(count)).expect("the list can be written");
}
