//! What the programs share: library, count and seed, the folder for what differs, what was seen.

use std::collections::BTreeMap;
use std::fs;
use std::time::{SystemTime, UNIX_EPOCH};

use crate::abi::{Calls, Table};
use crate::open::find;

const FOLDER: &str = "target/differential";

/// How often each thing was seen.
pub type Seen = BTreeMap<String, u64>;

fn words(seen: &Seen) -> String {
    seen.iter().map(|(what, times)| format!("{what} {times}")).collect::<Vec<_>>().join(", ")
}

/// Says what was seen. From `enough` cases on, each thing `to_reach` is to be among it, or the comparison sees less than it should.
pub fn all_reached(program: &str, seen: &Seen, to_reach: &[&str], count: u64, enough: u64) -> bool {
    println!("{program}: {}", words(seen));
    let missed: Vec<_> = to_reach.iter().copied().filter(|&what| !seen.contains_key(what)).collect();
    let reached = count < enough || missed.is_empty();
    if !reached {
        println!("{program}: never reached: {}", missed.join("; "));
    }
    reached
}

/// LIBRARY [COUNT] [SEED]: the library's calls, the count and the seed; the last two are printed.
pub fn begin(program: &str, things: &str, count: u64) -> (Calls, u64, u64) {
    let mut arguments = std::env::args().skip(1);
    let library = arguments.next().expect("linked, second, or the path of a shared object");
    let (count, seed) = count_and_seed(arguments, count);
    let calls = find(&library).unwrap_or_else(|| panic!("no library {library}"));
    println!("{program}: {count} {things}, seed {seed}");
    (calls, count, seed)
}

/// [COUNT] [SEED]: `count` and the clock's second if not given.
pub fn count_and_seed(mut arguments: impl Iterator<Item = String>, count: u64) -> (u64, u64) {
    let count = arguments.next().map_or(count, |text| text.parse().expect("a count"));
    (count, arguments.next().map_or_else(clock_seed, |text| text.parse().expect("a seed")))
}

fn clock_seed() -> u64 {
    SystemTime::now().duration_since(UNIX_EPOCH).map_or(1, |since| since.as_secs())
}

/// The parts of a table that are in use, a line each.
pub fn describe_table(table: &Table) -> String {
    let mut text = format!("{} rows\n{:?}\n", table.n, table.server);
    for task in table.tasks.iter().take(table.n as usize) {
        text += &format!("{task:?}\n");
    }
    text
}

/// Keeps what differs; the path that it was written to.
pub fn write(name: &str, bytes: &[u8]) -> String {
    let path = format!("{FOLDER}/{name}");
    fs::create_dir_all(FOLDER).expect("target is writable");
    fs::write(&path, bytes).expect("target is writable");
    path
}
