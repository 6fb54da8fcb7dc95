//! Random plans, good and damaged, long and short, with padded numbers and without.

use second::state::QUEUE;
use second::table::{BACKGROUND, FIELD_MOST, RETURNING, ROWS};
use second::{Row, Server, Table};

use crate::digits;
use crate::padding::pad_or_break;
use crate::random::Random;

/// Values at the edges of every limit of the table, the queue and the plan.
pub const EDGES: &[u32] = &[
    0,
    1,
    2,
    3,
    4,
    5,
    15,
    16,
    17,
    23,
    24,
    25,
    59_999,
    60_000,
    60_001,
    65_535,
    65_536,
    999_999,
    1_000_000,
    1_000_001,
    4_294_967_294,
    4_294_967_295,
];

/// Texts that are no numbers of a plan, and some that are.
const TEXTS: &[&str] = &[
    "",
    "0",
    "00",
    "01",
    "007",
    "1",
    "0000000000",
    "4294967295",
    "4294967296",
    "4294967300",
    "5000000000",
    "9999999999",
    "10000000000",
    "12345678901",
    "04294967295",
    "18446744073709551617",
    "+1",
    "-1",
    " 1",
    "1 ",
    "1\r",
    "\t1",
    "0x1",
    "1.0",
    "1e3",
    "\"1\"",
    "a",
    "١",
    "60000",
    "60001",
    "1000000",
    "1000001",
];

const LETTERS: &[&str] = &["T", "S", "A", "R", "t", "s", "a", "r", "B", "X", "", "TT", " T", "A ", "\u{feff}T", "Z"];

/// One plan in four, of every sort, has zeros before its numbers.
pub fn plan(random: &mut Random) -> Vec<u8> {
    let plan = any_plan(random);
    if random.once_in(4) {
        pad_or_break(random, &plan)
    } else {
        plan
    }
}

fn any_plan(random: &mut Random) -> Vec<u8> {
    match random.below(1000) {
        0..=469 => text(&good(random, 4, 14, 60)),
        470..=499 => text(&many_stretches(random)),
        500..=569 => text(&good(random, 16, 60, 300)),
        570..=599 => text(&burst(random)),
        600..=619 => text(&wide(random)),
        620..=719 => text(&edged(random)),
        720..=729 => long(random),
        730..=759 => noise(random),
        _ => damaged(random),
    }
}

/// Lines, each closed by a line feed.
pub fn text(lines: &[String]) -> Vec<u8> {
    lines.iter().flat_map(|line| [line.as_bytes(), b"\n"].concat()).collect()
}

/// A row within its limits, its period at most `period`, its execution about a `share`th of it.
pub fn row(random: &mut Random, period: u32, share: u32) -> Row {
    let period = random.from(1, period);
    let deadline = if random.once_in(3) { period } else { random.from(period.div_ceil(3), period) };
    let most = if random.once_in(8) { deadline } else { deadline.div_ceil(share) };
    let exec = random.from(1, most);
    let phase = if random.once_in(2) { 0 } else { random.from(0, 2 * period) };
    Row { phase: phase.min(FIELD_MOST), period, exec, deadline }
}

pub fn server(random: &mut Random, n: u32, period: u32, share: u32) -> Server {
    let kind = random.pick(&[0, 1, 1, 2, 2, 3, 3, 3, 3, 4, 4, 4]);
    if kind == BACKGROUND {
        return Server { kind, place: n, period: 0, budget: 0 };
    }
    let period = random.from(1, period);
    let most = if random.once_in(8) { period } else { period.div_ceil(share) };
    let budget = random.from(1, most);
    Server { kind, place: random.from(0, n), period, budget }
}

/// A period and a budget with room for more than the 32 stretches that kind 4 may hold, or just not: with one tick each and one between
/// them these take 63 ticks.
pub fn room_for_all(random: &mut Random, server: &mut Server) {
    let other = random.from(65, 160);
    server.period = random.pick(&[63, 64, 65, 66, other, other]);
    server.budget = if random.once_in(4) { server.period } else { random.from(31, server.period) };
}

/// A table within its limits: light ones, which are mostly admitted, and heavy ones, which drop jobs.
pub fn table(random: &mut Random, rows: u32, period: u32) -> Table {
    let n = random.from(1, rows);
    let share = if random.once_in(2) { 2 * n + 1 } else { 2 };
    let mut table = Table { n, server: server(random, n, period, share), ..Table::default() };
    for slot in &mut table.rows[..n as usize] {
        *slot = row(random, period, share);
    }
    table
}

fn row_line(row: &Row) -> String {
    format!("T,{},{},{},{}", row.phase, row.period, row.exec, row.deadline)
}

fn table_lines(table: &Table) -> Vec<String> {
    let mut lines: Vec<String> = table.used().iter().map(row_line).collect();
    let s = &table.server;
    lines.push(format!("S,{},{},{},{}", s.kind, s.place, s.period, s.budget));
    lines
}

fn id(random: &mut Random) -> u32 {
    match random.below(16) {
        0 => random.pick(EDGES),
        1 => random.pick(&digits::edges()),
        _ => random.from(0, 99),
    }
}

/// A good plan: requests come singly and in small heaps, some at or past the end.
fn good(random: &mut Random, rows: u32, period: u32, ticks: u32) -> Vec<String> {
    let mut lines = table_lines(&table(random, rows, period));
    let ticks = if random.once_in(30) { 0 } else { random.from(1, ticks) };
    let mut tick = 0;
    for _ in 0..random.below(14) {
        tick += random.from(0, 2 + ticks / 4);
        let work = if random.once_in(20) { random.pick(&[1, 59_999, 60_000]) } else { random.from(1, 6) };
        lines.push(format!("A,{tick},{},{work}", id(random)));
    }
    lines.push(format!("R,{ticks}"));
    lines
}

/// A server of kind 4 that serves single ticks, with a tick or more between them: more stretches than it may hold are wanted. Either the
/// requests come so, or one waits all the time and a row above has every other tick or so. In half of them a row below wants much: a tick
/// that the server may not serve goes to that row, where else it would be idle and go to a request all the same.
fn many_stretches(random: &mut Random) -> Vec<String> {
    let n = random.from(1, 3);
    let mut table = Table { n, ..Table::default() };
    table.rows[..n as usize].fill_with(|| row(random, 200, 12));
    let by_row = random.once_in(3);
    table.server = Server { kind: RETURNING, place: if by_row { 1 } else { random.from(0, n / 2) }, period: 0, budget: 0 };
    room_for_all(random, &mut table.server);
    if by_row {
        let period = random.pick(&[2, 2, 2, 3]);
        table.rows[0] = Row { phase: random.from(0, 9), period, exec: random.from(1, period - 1), deadline: period };
    }
    if table.server.place < n && random.once_in(2) {
        table.rows[n as usize - 1] = Row { phase: random.from(0, 99), period: 200, exec: random.from(50, 200), deadline: 200 };
    }
    let mut lines = table_lines(&table);
    lines.extend(if by_row { long_requests(random) } else { single_requests(random) });
    lines.push(format!("R,{}", random.from(100, 350)));
    lines
}

fn long_requests(random: &mut Random) -> Vec<String> {
    let tick = random.from(0, 9);
    (0..random.from(1, 3)).map(|i| format!("A,{},{i},{}", tick + 7 * i, random.from(30, 200))).collect()
}

/// Mostly of one tick each and every other tick, then a few at once.
fn single_requests(random: &mut Random) -> Vec<String> {
    let mut tick = random.from(0, 9);
    let mut lines = Vec::new();
    for i in 0..random.from(31, 50) {
        let work = if random.once_in(12) { random.from(2, 4) } else { 1 };
        lines.push(format!("A,{tick},{i},{work}"));
        tick += work + if random.once_in(12) { random.from(0, 3) } else { 1 };
    }
    lines.extend((0..random.from(0, 3)).map(|_| format!("A,{tick},{},{}", id(random), random.from(1, 9))));
    lines
}

/// About as many requests as the queue holds, or far more, in one tick and in the ticks after it.
fn burst(random: &mut Random) -> Vec<String> {
    let mut lines = table_lines(&table(random, 3, 8));
    let mut tick = random.from(0, 4);
    for _ in 0..random.from(1, 3) {
        for i in 0..at_once(random) {
            lines.push(format!("A,{tick},{i},{}", random.from(1, 2)));
        }
        tick += random.from(0, 9);
    }
    lines.push(format!("R,{}", random.from(1, 200)));
    lines
}

/// One short of what the queue holds, as many, one more, half to twice as many, about a hundred.
fn at_once(random: &mut Random) -> u32 {
    let most = QUEUE as u32;
    let (some, many) = (random.from(most / 2, 2 * most), random.from(90, 110));
    random.pick(&[most - 1, most, most + 1, some, some, many])
}

/// Large periods and long runs; once in a while as long as a run may be.
fn wide(random: &mut Random) -> Vec<String> {
    let period = random.pick(&[300, 3_000, 60_000]);
    let mut lines = table_lines(&table(random, 3, period));
    for tick in 0..random.from(0, 5) {
        lines.push(format!("A,{},{},{}", tick * random.from(1, 400), id(random), random.from(1, 60_000)));
    }
    lines.sort_by_key(|line| arrival_tick(line));
    let ticks = if random.once_in(80) { 1_000_000 } else { random.from(1, 6_000) };
    lines.push(format!("R,{ticks}"));
    lines
}

/// The order of a good plan: tables first (0), then requests by their tick.
fn arrival_tick(line: &str) -> u32 {
    let tick = line.strip_prefix("A,").and_then(|rest| rest.split(',').next()?.parse::<u32>().ok());
    tick.map_or(0, |tick| tick + 1)
}

/// A good plan with one to three numbers put at an edge.
fn edged(random: &mut Random) -> Vec<String> {
    let rows = if random.once_in(4) { ROWS as u32 } else { 3 };
    let mut lines = good(random, rows, 9, 20);
    for _ in 0..random.from(1, 3) {
        let edge = random.pick(EDGES);
        // A run of the longest length belongs to `wide`.
        let edge = if (900_000..=1_000_000).contains(&edge) && !random.once_in(40) { 900 } else { edge };
        replace_number(random, &mut lines, &edge.to_string());
    }
    if random.once_in(3) {
        let rows = random.pick(&[0, 1, 15, 16, 17, 18, 30]);
        let first = lines.iter().position(|line| line.starts_with('S')).unwrap_or(0);
        lines.splice(..first, (0..rows).map(|_| row_line(&row(random, 9, 2))).collect::<Vec<_>>());
    }
    lines
}

fn replace_number(random: &mut Random, lines: &mut [String], number: &str) {
    let i = random.below(lines.len());
    let mut fields: Vec<&str> = lines[i].split(',').collect();
    if fields.len() > 1 {
        let field = 1 + random.below(fields.len() - 1);
        fields[field] = number;
        lines[i] = fields.join(",");
    }
}

/// About as long as a plan may be: at the limit, just below, just above, far above.
fn long(random: &mut Random) -> Vec<u8> {
    let mut lines = table_lines(&table(random, 3, 8));
    let tail = format!("R,{}\n", random.from(1, 50));
    let most = random.pick(&[65_520, 65_534, 65_535, 65_536, 65_536, 65_536, 65_537, 65_538, 70_000, 140_000]);
    // As long with zeros before the id as without.
    let filler = random.pick(&["A,4000000000,1234567,1\n", "A,4000000000,0001234,1\n"]);
    lines.push(format!("A,0,{},1", random.from(0, 9)));
    let mut bytes = text(&lines);
    while bytes.len() + 24 + tail.len() <= most {
        bytes.extend_from_slice(filler.as_bytes());
    }
    // The last request's id takes up what is left, where one to ten digits can.
    let rest = most.saturating_sub(bytes.len() + tail.len() + b"A,4000000000,,1\n".len());
    if (1..=10).contains(&rest) {
        bytes.extend_from_slice(format!("A,4000000000,{},1\n", "1".repeat(rest)).as_bytes());
    }
    bytes.extend_from_slice(tail.as_bytes());
    if random.once_in(6) {
        bytes.extend_from_slice(b"\n");
    }
    bytes
}

/// Bytes and lines without sense.
fn noise(random: &mut Random) -> Vec<u8> {
    if random.once_in(2) {
        return (0..random.below(40)).map(|_| random.pick(b"TSAR,,,0123456789\n\n\r -")).collect();
    }
    let count = random.below(6);
    let lines: Vec<String> = (0..count).map(|_| any_line(random)).collect();
    text(&lines)
}

fn any_line(random: &mut Random) -> String {
    let fields = random.below(6);
    let mut line = random.pick(LETTERS).to_string();
    for _ in 0..fields {
        line.push(',');
        line.push_str(random.pick(TEXTS));
    }
    line
}

/// A well-formed line that may stand anywhere.
fn formed_line(random: &mut Random) -> String {
    match random.below(4) {
        0 => row_line(&row(random, 9, 2)),
        1 => format!("S,{},{},{},{}", random.from(0, 5), random.from(0, 3), random.from(0, 9), random.from(0, 9)),
        2 => format!("A,{},{},{}", random.from(0, 30), id(random), random.pick(&[0, 1, 5, 60_000, 60_001])),
        _ => format!("R,{}", random.pick(&[0, 1, 30, 1_000_001])),
    }
}

/// A good plan, damaged in one to three places.
fn damaged(random: &mut Random) -> Vec<u8> {
    let mut lines = good(random, 3, 9, 20);
    for _ in 0..random.from(1, 2) {
        damage_lines(random, &mut lines);
    }
    let mut bytes = text(&lines);
    if random.once_in(3) {
        damage_bytes(random, &mut bytes);
    }
    bytes
}

fn damage_lines(random: &mut Random, lines: &mut Vec<String>) {
    if lines.is_empty() {
        return;
    }
    let (i, j) = (random.below(lines.len()), random.below(lines.len()));
    match random.below(11) {
        0 | 1 => {
            let text = random.pick(TEXTS);
            replace_number(random, lines, text);
        }
        2 => drop(lines.remove(i)),
        3 => lines.insert(j, lines[i].clone()),
        4 => lines.swap(i, j),
        5 => lines.insert(i, formed_line(random)),
        6 => lines.push(formed_line(random)),
        7 => lines.insert(i, any_line(random)),
        8 => lines[i].push_str(random.pick(&[",", ",1", "\r", " ", ",0,0"])),
        9 => lines[i] = lines[i].rsplit_once(',').map_or(String::new(), |(start, _)| start.to_string()),
        _ => lines[i] = lines[i].replacen(|letter: char| letter.is_ascii_uppercase(), random.pick(LETTERS), 1),
    }
}

fn damage_bytes(random: &mut Random, bytes: &mut Vec<u8>) {
    if bytes.is_empty() {
        return;
    }
    let i = random.below(bytes.len());
    let byte = if random.once_in(2) { random.pick(b",\n\r 0TSAR") } else { random.word() as u8 };
    match random.below(6) {
        0 | 1 => drop(bytes.pop()),
        2 => bytes.truncate(i),
        3 => drop(bytes.remove(i)),
        4 => bytes.insert(i, byte),
        _ => bytes[i] = byte,
    }
}
