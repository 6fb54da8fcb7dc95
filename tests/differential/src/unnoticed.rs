//! Request 2/13 of document 02, "rows above the server don't notice requests", tried by the library's calls alone: two lists of calls from
//! one fresh state, with equally many accepted ticks, and what each row has and loses in each tick.

use second::refusal::UNFIT_STATE;
use second::table::ROWS;

use crate::abi::{Calls, Entry, State, Table};
use crate::convert::from_state;
use crate::idle::given;
use crate::made::{entry, make, must, Made};
use crate::pair::{count, cut, Call, Pair};

/// A tick as the library told of it, and the rows dropped in it.
pub struct Ticked {
    pub entry: Entry,
    pub dropped: [bool; ROWS],
    /// The stretches held before it.
    pub held: u32,
    /// It would be idle, and a request has it: by the second implementation, for the counts alone.
    pub given: bool,
}

impl Ticked {
    /// The row that has the tick, if one has.
    pub fn row(&self) -> Option<usize> {
        (self.entry.kind == 1).then_some(self.entry.id as usize)
    }

    pub fn by_request(&self) -> bool {
        self.entry.kind == 2
    }
}

/// What a list came to: its accepted ticks, and each call's name and number.
#[derive(Default)]
pub struct Played {
    pub ticks: Vec<Ticked>,
    pub endings: Vec<(&'static str, u32)>,
}

/// "Row i is dropped in tick u" is step 1 at the state before it: open, t >= f + D, and (t - D - f) divisible by p.
fn dropped(table: &Table, before: &State) -> [bool; ROWS] {
    let t = before.progress.clock as u64;
    let at_deadline = |row: usize| {
        let task = table.tasks[row];
        let due = task.phase as u64 + task.deadline as u64;
        t >= due && (t - due) % task.period as u64 == 0
    };
    std::array::from_fn(|row| row < table.n as usize && before.progress.left[row] > 0 && at_deadline(row))
}

/// Plays a list: each call gets the state that the last one handed back, refused or not.
struct Player<'a> {
    calls: &'a Calls,
    table: &'a Table,
    state: State,
    played: Played,
}

impl Player<'_> {
    /// The call's number.
    fn call(&mut self, call: Call) -> Result<u32, String> {
        let made = make(self.calls, &self.state, call);
        let before = self.state;
        match (call, made.number) {
            (Call::Tick, 0) => self.note(&before, made.ticks[0])?,
            (Call::Run { .. }, 0) => self.single_ticks(&made)?,
            _ => {}
        }
        self.played.endings.push((made.name, made.number));
        self.state = made.state;
        Ok(made.number)
    }

    /// A run shows no state but its last: the others are those of single ticks, which must tell and end as the run does.
    fn single_ticks(&mut self, run: &Made) -> Result<(), String> {
        let mut single = self.state;
        for &written in &run.ticks {
            // SAFETY: structs by value, no pointer.
            let tick = unsafe { (self.calls.tick)(single) };
            let u = self.played.ticks.len();
            must(tick.number == 0, || format!("tick {u} is carried out in a run, and refused with {} alone", tick.number))?;
            must(entry(&tick) == written, || format!("tick {u}: a run writes {written:?}, the tick alone says {:?}", entry(&tick)))?;
            self.note(&single, written)?;
            single = tick.state;
        }
        let (k, u) = (run.ticks.len(), self.played.ticks.len());
        must(single == run.state, || format!("a run of {k} ticks ends before tick {u} in another state than single ticks"))
    }

    /// Tick u has clock u before it, and reports as many drops as rows are dropped in it.
    fn note(&mut self, before: &State, entry: Entry) -> Result<(), String> {
        let (u, clock, dropped) = (self.played.ticks.len(), before.progress.clock, dropped(self.table, before));
        must(clock as usize == u, || format!("tick {u} has clock {clock} before it"))?;
        let rows = dropped.iter().filter(|&&dropped| dropped).count();
        must(entry.drops as usize == rows, || format!("tick {u} reports {} drops, {rows} rows are dropped in it", entry.drops))?;
        let given = entry.kind == 2 && given(&from_state(before));
        self.played.ticks.push(Ticked { entry, dropped, held: before.returns.n, given });
        Ok(())
    }
}

/// A refused table makes no tick: the state that its set-up hands back is unfit, and every call refuses it.
fn play(calls: &Calls, table: &Table, list: &[Call]) -> Result<Played, String> {
    // SAFETY: structs by value, no pointer.
    let up = unsafe { (calls.set_up)(*table) };
    let mut player = Player { calls, table, state: up.state, played: Played::default() };
    for &call in list {
        let number = player.call(call)?;
        must(up.number == 0 || number == UNFIT_STATE, || format!("{call:?} ends with {number} on a refused table"))?;
    }
    let (made, wanted) = (player.played.ticks.len(), if up.number == 0 { count(list) } else { 0 });
    must(made == wanted as usize, || format!("{made} ticks accepted, {wanted} wanted"))?;
    Ok(player.played)
}

/// How many rows are above the server.
pub fn above(table: &Table) -> usize {
    table.server.place.min(table.n) as usize
}

/// A difference in words, or what the two lists came to.
pub fn compare(calls: &Calls, pair: &Pair) -> Result<[Played; 2], String> {
    let play = |i: usize| play(calls, &pair.table, &pair.lists[i]).map_err(|words| format!("list {i}: {words}"));
    let (one, other) = (play(0)?, play(1)?);
    must(one.ticks.len() == other.ticks.len(), || "more ticks are accepted in one list than in the other".to_string())?;
    for (u, (a, b)) in one.ticks.iter().zip(&other.ticks).enumerate() {
        for row in 0..above(&pair.table) {
            let has = |tick: &Ticked| tick.row() == Some(row);
            must(has(a) == has(b), || format!("row {row} above the server has tick {u} in one list alone"))?;
            must(a.dropped[row] == b.dropped[row], || format!("row {row} above the server is dropped in tick {u} in one list alone"))?;
        }
    }
    Ok([one, other])
}

/// Makes a failing pair small: fewer ticks, then fewer calls that make no tick, as long as it fails.
pub fn shrink(calls: &Calls, pair: &Pair) -> Pair {
    let mut small = pair.clone();
    let fails = |lists: &[Vec<Call>; 2]| compare(calls, &Pair { table: pair.table, lists: lists.clone() }).is_err();
    for ticks in (0..count(&pair.lists[0])).rev() {
        let shorter = small.lists.each_ref().map(|list| cut(list, ticks));
        if !fails(&shorter) {
            break;
        }
        small.lists = shorter;
    }
    for i in [0, 1] {
        for at in (0..small.lists[i].len()).rev() {
            let mut fewer = small.lists.clone();
            if fewer[i].remove(at).ticks() == 0 && fails(&fewer) {
                small.lists = fewer;
            }
        }
    }
    small
}
