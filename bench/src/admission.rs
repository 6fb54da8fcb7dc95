//! Admission on tables that make it long, and the longest of many random ones.

use differential::abi::Calls;
use differential::convert::to_table;
use differential::random::Random;
use second::{Row, Server, Table};

use crate::{least, timed};

const GOES: u32 = 10;
const RANDOM: u64 = 3_000;

fn with(rows: Vec<Row>, server: Server) -> Table {
    let mut table = Table { n: rows.len() as u32, server, ..Table::default() };
    table.rows[..rows.len()].copy_from_slice(&rows);
    table
}

fn row(period: u32, exec: u32) -> Row {
    Row { phase: 0, period, exec, deadline: period }
}

fn background(n: usize) -> Server {
    Server { kind: 0, place: n as u32, period: 0, budget: 0 }
}

/// Sixteen tasks of short periods, lightly loaded: what an analyser has.
fn ordinary() -> Table {
    with((0..16).map(|i| row(50 + 25 * i, 1 + i / 4)).collect(), Server { kind: 2, place: 4, period: 40, budget: 4 })
}

/// Utilisation just below 1: bounds exist and are long.
fn nearly_full() -> Table {
    let mut rows: Vec<Row> = (0..15).map(|i| row(30 + i, 2)).collect();
    rows.push(row(60_000, 20));
    let n = rows.len();
    with(rows, background(n))
}

/// The first task takes every tick: no other has a bound, and the demand of a length is always a little more than the length.
fn overrun() -> Table {
    let mut rows = vec![row(1, 1)];
    rows.extend((0..15).map(|_| row(60_000, 1)));
    with(rows, background(16))
}

/// The same by the server, above every task.
fn overrun_by_server() -> Table {
    with((0..16).map(|_| row(60_000, 1)).collect(), Server { kind: 1, place: 0, period: 1, budget: 1 })
}

/// Utilisation 1 less one part in three million: 1/2 + 1/3 + 1/7 + 1/43 + 1/1807, then tasks of 1 in 60,000.
fn unit_fractions() -> Table {
    let mut rows: Vec<Row> = [2, 3, 7, 43, 1_807].into_iter().map(|period| row(period, 1)).collect();
    rows.extend((0..11).map(|_| row(60_000, 1)));
    with(rows, background(16))
}

/// All of the first fifteen tasks together take every tick.
fn overrun_together() -> Table {
    let mut rows: Vec<Row> = (0..15).map(|_| row(15, 1)).collect();
    rows.push(row(60_000, 1));
    with(rows, background(16))
}

/// Rows from pairs of execution and period.
fn rows(pairs: &[(u32, u32)]) -> Vec<Row> {
    pairs.iter().map(|&(exec, period)| row(period, exec)).collect()
}

/// Found by a search for tables whose jumps are many: load 0.9999.
fn searched() -> Table {
    let rows = rows(&[
        (1, 6),
        (1, 25),
        (1, 17),
        (1, 18),
        (1, 28),
        (1, 7),
        (1, 33_164),
        (1, 19_549),
        (1, 43_087),
        (1, 53_793),
        (1, 55_649),
        (1, 37_933),
        (1, 59_999),
        (1, 34_634),
        (1, 59_998),
        (3, 60_000),
    ]);
    with(rows, Server { kind: 2, place: 2, period: 6, budget: 3 })
}

/// Another, without a deferrable server: load 0.9999, and the server's own bound is searched for to the end too.
fn searched_tasks() -> Table {
    let rows = rows(&[
        (2, 28),
        (1, 13),
        (3, 6),
        (1, 112),
        (1, 105),
        (1, 95),
        (1, 21),
        (2, 32),
        (2, 75),
        (5, 72),
        (3, 92),
        (2, 101),
        (3, 47),
        (1, 32_268),
        (1, 59_996),
        (3, 60_000),
    ]);
    with(rows, Server { kind: 3, place: 14, period: 40_969, budget: 1 })
}

fn random_table(random: &mut Random) -> Table {
    let n = random.from(1, 16);
    let most = random.pick(&[10, 100, 1_000, 60_000]);
    let rows = (0..n)
        .map(|_| {
            let period = random.from(1, most);
            row(period, random.from(1, (2 * period / n).clamp(1, period)))
        })
        .collect();
    let kind = random.from(0, 4);
    let period = random.from(1, most);
    match kind {
        0 => with(rows, background(n as usize)),
        _ => with(rows, Server { kind, place: random.from(0, n), period, budget: random.from(1, period) }),
    }
}

/// Tasks that leave little to the others, which want 1 to 3 in 60,000.
fn random_full_table(random: &mut Random) -> Table {
    let full = random.from(2, 15);
    let most = random.pick(&[10, 60, 200, 1_000]);
    let mut left = 1.0;
    let mut rows: Vec<Row> = Vec::new();
    for _ in 0..full {
        let period = random.from(2, most);
        let exec = random.from(1, (0.6 * left * f64::from(period)) as u32 + 1);
        let rest = left - f64::from(exec) / f64::from(period);
        if rest > 0.0 {
            left = rest;
            rows.push(row(period, exec));
        }
    }
    rows.resize_with(16, || row(60_000, random.from(1, 3)));
    with(rows, background(16))
}

/// The table of many random ones that takes the library longest.
fn longest(calls: &Calls, table: fn(&mut Random) -> Table) -> Table {
    (0..RANDOM)
        .map(|case| table(&mut Random::new(11, case)))
        .map(|table| (table, least(5, || [timed(|| admit(calls, &table))])[0]))
        .max_by(|a, b| a.1.total_cmp(&b.1))
        .expect("some table")
        .0
}

pub fn print(calls: &Calls) {
    println!("## Admission, microseconds a table\n");
    println!("| table | library | second | library/second |");
    println!("|---|---|---|---|");
    line(calls, "ordinary: 16 tasks of 1 to 4 ticks, periods 50 to 425, deferrable", ordinary());
    line(calls, "nearly full: 15 tasks of 2 ticks, periods 30 to 44, then one of 20 in 60,000", nearly_full());
    line(calls, "unit fractions: 1 in 2, 3, 7, 43 and 1,807, then 11 of 1 in 60,000", unit_fractions());
    line(calls, "overrun together: 15 tasks of 1 in 15, then one of 1 in 60,000", overrun_together());
    line(calls, "overrun: task of 1 in 1, then 15 of 1 in 60,000", overrun());
    line(calls, "overrun by the server: 1 in 1, above 16 tasks of 1 in 60,000", overrun_by_server());
    line(
        calls,
        "searched for: 6 tasks of 1 in 6 to 28 and a deferrable server of 3 in 6, then 10 of 1 to 3 in 19,549 to 60,000",
        searched(),
    );
    line(calls, "searched for: 13 tasks of 1 to 5 in 6 to 112, then 3, and a sporadic server of 1 in 40,969", searched_tasks());
    line(calls, &format!("the longest of {RANDOM} random tables"), longest(calls, random_table));
    line(calls, &format!("the longest of {RANDOM} random tables of load near 1"), longest(calls, random_full_table));
    println!();
}

fn admit(calls: &Calls, table: &Table) {
    // SAFETY: structs by value, no pointer.
    assert_eq!(unsafe { (calls.admit)(to_table(table)) }.number, 0);
}

fn line(calls: &Calls, name: &str, table: Table) {
    let [library, second] =
        least(GOES, || [timed(|| admit(calls, &table)), timed(|| assert!(second::admit(&table).is_ok()))]).map(|seconds| seconds * 1e6);
    // SAFETY: structs by value, no pointer.
    let bounds = unsafe { (calls.admit)(to_table(&table)) }.bounds;
    assert_eq!(second::admit(&table).expect("a table within its limits").bounds, bounds);
    println!("| {name} | {library:.1} | {second:.1} | {:.3} |", library / second);
}
