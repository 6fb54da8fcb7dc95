//! `waiting LIBRARY [COUNT] [SEED]`: request 8/13 of document 02 by the library's calls: COUNT lists of request, tick and run calls, each
//! from a fresh state. After every call the library is asked for the work waiting, and its answer is held against two sums made here: the
//! sum over the queue of the state that came back, and the works of the accepted requests less the ticks that went to a request. Now and then
//! the state with its figure off by one is handed to every call, which must refuse it with 11.
//! LIBRARY is `linked` (built with that feature), `second` (the second implementation), or a shared object's path.
//! A list that fails is made small and written to target/differential/.

use std::process::exit;
use std::time::Instant;

use differential::abi::Calls;
use differential::ledger::{check, random_list, shrink, to_reach, List};
use differential::program::{all_reached, begin, describe_table, write, Seen};
use differential::random::Random;

/// From so many lists on, all of `to_reach` is to be reached.
const ENOUGH: u64 = 1_000;

fn main() {
    let (calls, count, seed) = begin("waiting", "lists", 20_000);
    let start = Instant::now();
    let mut seen = Seen::new();
    for index in 0..count {
        let list = random_list(&mut Random::new(seed, index));
        if check(&calls, &list, &mut seen).is_err() {
            report(&calls, seed, index, &list);
            exit(1);
        }
    }
    println!("waiting: all figures right in {:.1} s", start.elapsed().as_secs_f64());
    let to_reach = to_reach();
    let to_reach: Vec<&str> = to_reach.iter().map(String::as_str).collect();
    if !all_reached("waiting", &seen, &to_reach, count, ENOUGH) {
        exit(1);
    }
}

fn report(calls: &Calls, seed: u64, index: u64, list: &List) {
    let small = shrink(calls, list);
    let difference = check(calls, &small, &mut Seen::new()).err().unwrap_or_default();
    let text = format!("{difference}\n\nmade small:\n{}\nevery slot:\n{:?}\n\nas met:\n{list:?}\n", describe(&small), small.table);
    let path = write(&format!("list-{seed}-{index}.txt"), text.as_bytes());
    println!("waiting: list {index} of seed {seed} fails; written to {path}");
    println!("{difference}");
}

/// The table's parts in use and the list, a line each.
fn describe(list: &List) -> String {
    let mut text = describe_table(&list.table);
    for step in &list.steps {
        text += &format!("  {step:?}\n");
    }
    text
}
