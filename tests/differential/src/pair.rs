//! Random lists of request, tick and run calls, for one table; refused calls are among them. Pairs of them have equally many accepted ticks.

use second::state::{CLOCK_LAST, QUEUE, WORK_MOST};
use second::table::{BACKGROUND, RETURNING, ROWS};

use crate::abi::Table;
use crate::convert::to_table;
use crate::random::Random;
use crate::state;

#[derive(Clone, Copy, Debug)]
pub enum Call {
    Request {
        id: u32,
        work: u32,
    },
    Tick,
    /// k ticks into a lent list of this many entries.
    Run {
        k: u32,
        lent: u32,
    },
}

impl Call {
    /// The ticks that are accepted, "a run of k counting k". No list comes near the clock's last value.
    pub fn ticks(self) -> u32 {
        match self {
            Call::Tick => 1,
            Call::Run { k, lent } if k <= lent => k,
            _ => 0,
        }
    }
}

#[derive(Clone, Debug)]
pub struct Pair {
    pub table: Table,
    pub lists: [Vec<Call>; 2],
}

pub fn random_pair(random: &mut Random) -> Pair {
    let table = table(random);
    let ticks = ticks(random);
    Pair { table, lists: [(); 2].map(|()| list_for(random, &table, ticks)) }
}

/// Once in 30 a damaged table, which set-up refuses as a rule. Of the others about half have rows on both sides of the server.
pub fn table(random: &mut Random) -> Table {
    if random.once_in(30) {
        return to_table(&state::bad_table(random));
    }
    let mut table = state::table(random);
    if table.server.kind != BACKGROUND && table.n > 1 && random.once_in(2) {
        table.server.place = random.from(1, table.n - 1);
    }
    to_table(&table)
}

/// How many ticks a list makes.
pub fn ticks(random: &mut Random) -> u32 {
    if random.once_in(10) {
        random.from(200, 400)
    } else {
        random.from(20, 200)
    }
}

/// A list of so many accepted ticks.
pub fn list_for(random: &mut Random, table: &Table, ticks: u32) -> Vec<Call> {
    if table.server.kind == RETURNING && random.once_in(3) {
        apart(random, ticks)
    } else {
        list(random, ticks)
    }
}

/// Requests of one tick that never meet: under kind 4 a stretch each.
fn apart(random: &mut Random, ticks: u32) -> Vec<Call> {
    let request = Call::Request { id: random.word(), work: 1 };
    cut(&[request, Call::Tick, Call::Tick].repeat(ticks as usize), ticks)
}

/// A list without a request once in four, else with few or many.
fn list(random: &mut Random, ticks: u32) -> Vec<Call> {
    let requests = random.pick(&[0, 1, 3, 9]);
    let (mut list, mut made) = (Vec::new(), 0);
    while made < ticks {
        let more = calls_at_once(random, requests);
        made += count(&more);
        list.extend(more);
    }
    cut(&list, ticks)
}

fn calls_at_once(random: &mut Random, requests: usize) -> Vec<Call> {
    match random.below(8 + requests) {
        0..=4 => vec![Call::Tick],
        5 => vec![short_run(random)],
        6 => vec![run(random)],
        7 => vec![refused_run(random)],
        // About as many as the queue holds, or more.
        _ if random.once_in(40) => (0..random.from(QUEUE as u32 - 4, QUEUE as u32 + 26)).map(|_| request(random)).collect(),
        _ => vec![request(random)],
    }
}

/// The ids of requests are often those of rows: an entry's kind tells them apart.
fn request(random: &mut Random) -> Call {
    let id = if random.once_in(4) { random.word() } else { random.from(0, ROWS as u32) };
    let work = if random.once_in(12) { random.pick(&[0, WORK_MOST, WORK_MOST + 1, u32::MAX]) } else { random.from(1, 6) };
    Call::Request { id, work }
}

fn short_run(random: &mut Random) -> Call {
    let k = random.from(0, 4);
    Call::Run { k, lent: k }
}

fn run(random: &mut Random) -> Call {
    let k = random.from(0, 40);
    Call::Run { k, lent: k + random.pick(&[0, 1, 7]) }
}

/// Too few entries lent, or more ticks than the clock has left: its last value is too many once a tick has run.
fn refused_run(random: &mut Random) -> Call {
    let short = random.from(1, 40);
    let k = random.pick(&[short, short, CLOCK_LAST, CLOCK_LAST + 1, u32::MAX]);
    Call::Run { k, lent: random.from(0, short - 1) }
}

pub fn count(list: &[Call]) -> u32 {
    list.iter().map(|call| call.ticks()).sum()
}

/// The list up to so many ticks: the run that passes them is cut to fit.
pub fn cut(list: &[Call], ticks: u32) -> Vec<Call> {
    let mut shorter = Vec::new();
    let mut left = ticks;
    for &call in list {
        if left == 0 {
            break;
        }
        let made = call.ticks().min(left);
        shorter.push(match call {
            Call::Run { lent, .. } if made > 0 => Call::Run { k: made, lent },
            _ => call,
        });
        left -= made;
    }
    shorter
}
