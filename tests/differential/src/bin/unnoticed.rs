//! `unnoticed LIBRARY [COUNT] [SEED]`: request 2/13 of document 02 by the library's calls: COUNT pairs of lists of request, tick and run
//! calls, each pair from one fresh state and with equally many accepted ticks. A row above the server has the same ticks in both lists and
//! is dropped in the same; every tick reports as many drops as rows are dropped.
//! LIBRARY is `linked` (built with that feature), `second` (the second implementation), or a shared object's path.
//! A pair that differs is made small and written to target/differential/.

use std::process::exit;
use std::time::Instant;

use differential::abi::{Calls, Table};
use differential::pair::{random_pair, Pair};
use differential::program::{all_reached, begin, describe_table, write, Seen};
use differential::random::Random;
use differential::unnoticed::{above, compare, shrink, Played, Ticked};

/// What must be seen, or the comparison sees nothing: that rows below do notice, among the rest.
const TO_REACH: &[&str] = &[
    "kind 0",
    "kind 1",
    "kind 2",
    "kind 3",
    "kind 4",
    "drop above under kind 0",
    "drop above under kind 1",
    "drop above under kind 2",
    "drop above under kind 3",
    "drop above under kind 4",
    "requests have other ticks under kind 0",
    "requests have other ticks under kind 1",
    "requests have other ticks under kind 2",
    "requests have other ticks under kind 3",
    "requests have other ticks under kind 4",
    "idle tick given under kind 0",
    "idle tick given under kind 1",
    "idle tick given under kind 2",
    "idle tick given under kind 3",
    "idle tick given under kind 4",
    "32 held under kind 4",
    "16 rows",
    "not admitted",
    "row below has other ticks",
    "row below dropped in other ticks",
    "other drops reported",
    "request refused 4",
    "request refused 5",
    "run refused 6",
    "run refused 10",
    "table refused",
    "list without a request",
];

/// From so many pairs on, each of these is to be reached.
const ENOUGH: u64 = 1_000;

fn main() {
    let (calls, count, seed) = begin("unnoticed", "pairs of lists", 20_000);
    let start = Instant::now();
    let mut seen = Seen::new();
    for index in 0..count {
        let pair = random_pair(&mut Random::new(seed, index));
        match compare(&calls, &pair) {
            Ok(played) => note(&mut seen, &calls, &pair.table, &played),
            Err(_) => {
                report(&calls, seed, index, &pair);
                exit(1);
            }
        }
    }
    println!("unnoticed: all alike in {:.1} s", start.elapsed().as_secs_f64());
    if !all_reached("unnoticed", &seen, TO_REACH, count, ENOUGH) {
        exit(1);
    }
}

/// Counts what a pair showed, and how its calls ended.
fn note(seen: &mut Seen, calls: &Calls, table: &Table, played: &[Played; 2]) {
    let mut add = |what: String| *seen.entry(what).or_default() += 1;
    for &(name, number) in played.iter().flat_map(|list| &list.endings) {
        add(if number == 0 { format!("{name} done") } else { format!("{name} refused {number}") });
    }
    // SAFETY: structs by value, no pointer.
    let admission = unsafe { (calls.admit)(*table) };
    if admission.number != 0 {
        return add("table refused".to_string());
    }
    let without = |list: &Played| list.endings.iter().all(|&(name, _)| name != "request");
    played.iter().filter(|list| without(list)).for_each(|_| add("list without a request".to_string()));
    if admission.admitted == 0 {
        add("not admitted".to_string());
    }
    shown(table, played).into_iter().for_each(add);
}

fn shown(table: &Table, [one, other]: &[Played; 2]) -> Vec<String> {
    let (kind, above) = (table.server.kind, above(table));
    let any = |test: &dyn Fn(&Ticked, &Ticked) -> bool| one.ticks.iter().zip(&other.ticks).any(|(a, b)| test(a, b));
    let row_below = |tick: &Ticked| tick.row().filter(|&row| row >= above);
    let all = [
        (format!("kind {kind}"), true),
        (format!("drop above under kind {kind}"), one.ticks.iter().any(|tick| tick.dropped[..above].contains(&true))),
        (format!("requests have other ticks under kind {kind}"), any(&|a, b| a.by_request() != b.by_request())),
        (format!("idle tick given under kind {kind}"), any(&|a, b| a.given || b.given)),
        ("32 held under kind 4".to_string(), kind == 4 && any(&|a, b| a.held == 32 || b.held == 32)),
        ("16 rows".to_string(), table.n == 16),
        ("row below has other ticks".to_string(), any(&|a, b| row_below(a) != row_below(b))),
        ("row below dropped in other ticks".to_string(), any(&|a, b| a.dropped[above..] != b.dropped[above..])),
        ("other drops reported".to_string(), any(&|a, b| a.entry.drops != b.entry.drops)),
    ];
    all.into_iter().filter(|&(_, holds)| holds).map(|(what, _)| what).collect()
}

fn report(calls: &Calls, seed: u64, index: u64, pair: &Pair) {
    let small = shrink(calls, pair);
    let difference = compare(calls, &small).err().unwrap_or_default();
    let text = format!("{difference}\n\nmade small:\n{}\nevery slot:\n{:?}\n\nas met:\n{pair:?}\n", describe(&small), small.table);
    let path = write(&format!("pair-{seed}-{index}.txt"), text.as_bytes());
    println!("unnoticed: pair {index} of seed {seed} differs; written to {path}");
    println!("{difference}");
}

/// The table's parts in use and both lists, a line each.
fn describe(pair: &Pair) -> String {
    let mut text = describe_table(&pair.table);
    for (i, list) in pair.lists.iter().enumerate() {
        text += &format!("list {i}:\n");
        for call in list {
            text += &format!("  {call:?}\n");
        }
    }
    text
}
