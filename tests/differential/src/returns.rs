//! Random returns of a server of kind 4 (document 02, 3/13): fit ones, ones that break one clause of refusal 11, any. And what a state and
//! its next tick show of kind 4.

use second::returning::STRETCHES;
use second::state::CLOCK_LAST;
use second::table::{POLLING, RETURNING};
use second::{Returns, State, Stretch};

use crate::random::Random;

/// Any numbers, any count: what the kinds 0 to 3 leave as it is.
pub fn any(random: &mut Random) -> Returns {
    let other = random.word();
    Returns { stretches: [(); STRETCHES].map(|()| any_stretch(random)), held: random.pick(&[0, 1, 2, 31, 32, 33, u32::MAX, other]) }
}

fn any_stretch(random: &mut Random) -> Stretch {
    match random.below(3) {
        0 => Stretch::default(),
        1 => Stretch { start: random.from(0, 100), length: random.from(0, 5) },
        _ => Stretch { start: random.word(), length: random.word() },
    }
}

/// A count of stretches, often one at the limit or next to it.
pub fn count(random: &mut Random) -> u32 {
    let other = random.from(0, STRETCHES as u32);
    random.pick(&[0, 1, 2, 3, 31, 32, 32, other])
}

/// Gives a state of kind 4 returns that fit its clock and server: `count` stretches, or as many as there is room for.
pub fn fill(random: &mut Random, state: &mut State, count: u32) {
    let (clock, server) = (state.clock, state.table.server);
    let window = server.period.min(clock);
    let count = count.min(server.budget).min(window.div_ceil(2));
    // What is left of the last P ticks beside stretches of one tick with one tick between them.
    let spare = (window + 1).saturating_sub(2 * count);
    let lengths = lengths(random, count, spare.min(server.budget - count));
    let held: u32 = lengths.iter().sum();
    let gaps = gaps(random, count as usize, spare + count - held);
    let mut tick = clock - window;
    state.returns.held = count;
    for (i, length) in lengths.into_iter().enumerate() {
        tick += gaps[i];
        state.returns.stretches[i] = Stretch { start: tick, length };
        tick += length;
    }
    state.service.budget = server.budget - held;
}

/// One tick each, and up to `most` more.
fn lengths(random: &mut Random, count: u32, most: u32) -> Vec<u32> {
    let mut lengths = vec![1; count as usize];
    if lengths.is_empty() {
        return lengths;
    }
    let some = random.from(0, most);
    let mut left = random.pick(&[0, most, some]);
    while left > 0 {
        let more = random.from(1, left);
        let other = random.below(count as usize);
        lengths[random.pick(&[0, other, other])] += more;
        left -= more;
    }
    lengths
}

/// The ticks before the first stretch, between each two, and behind the last. All that is spare often goes to one place: before the first,
/// so that the last ends with the tick before the clock; behind the last, so that the first starts at clock - P; or between.
fn gaps(random: &mut Random, count: usize, spare: u32) -> Vec<u32> {
    let mut gaps = vec![1; count + 1];
    (gaps[0], gaps[count]) = (0, 0);
    let mut left = spare;
    if random.once_in(2) {
        for _ in 0..random.below(4) {
            let more = random.from(0, left);
            gaps[random.below(count + 1)] += more;
            left -= more;
        }
    }
    let other = random.below(count + 1);
    gaps[random.pick(&[0, count, other])] += left;
    gaps
}

/// Which clause of refusal 11 is to be broken, and how many stretches that takes at least.
type Damage = (u32, fn(&mut Random, &mut State));

const DAMAGES: &[Damage] = &[
    (0, sum_off_by_one),
    (32, more_than_32),
    (1, empty),
    (2, out_of_order),
    (2, overlapping),
    (2, touching),
    (1, too_early),
    (1, too_late),
    (2, long_past_32_bits),
];

/// How many stretches a damage is tried on.
pub fn damage_and_count(random: &mut Random) -> (fn(&mut Random, &mut State), u32) {
    let (least, damage) = random.pick(DAMAGES);
    let other = random.from(least, STRETCHES as u32);
    (damage, random.pick(&[least, 32, other]))
}

fn sum_off_by_one(random: &mut Random, state: &mut State) {
    let (budget, whole) = (state.service.budget, state.table.server.budget);
    let more = budget == 0 || (budget < whole && random.once_in(2));
    state.service.budget = if more { budget + 1 } else { budget - 1 };
}

fn more_than_32(random: &mut Random, state: &mut State) {
    let other = random.from(34, u32::MAX);
    state.returns.held = random.pick(&[33, 33, 33, 33, 34, 64, 0x1_0000, 0x1_0020, 0x8000_0000, u32::MAX, other]);
}

/// A stretch in use, at any place or at the ends.
fn one(random: &mut Random, state: &State) -> usize {
    let held = state.returns.held as usize;
    let other = random.below(held);
    random.pick(&[0, held - 1, other])
}

/// A stretch in use and the next one.
fn two(random: &mut Random, state: &mut State) -> (Stretch, usize) {
    let last = state.returns.held as usize - 1;
    let other = random.below(last);
    let next = random.pick(&[0, last - 1, other]) + 1;
    (state.returns.stretches[next - 1], next)
}

/// Its ticks go back to the budget.
fn empty(random: &mut Random, state: &mut State) {
    let i = one(random, state);
    state.service.budget += state.returns.stretches[i].length;
    state.returns.stretches[i].length = 0;
}

fn out_of_order(random: &mut Random, state: &mut State) {
    let (_, next) = two(random, state);
    let before = if random.once_in(2) { next - 1 } else { random.below(next) };
    state.returns.stretches.swap(before, next);
}

/// The next one moves up, so that both have a tick or more.
fn overlapping(random: &mut Random, state: &mut State) {
    let (stretch, next) = two(random, state);
    let both = if random.once_in(2) { 1 } else { random.from(1, stretch.length) };
    state.returns.stretches[next].start = stretch.start + stretch.length - both;
}

fn touching(random: &mut Random, state: &mut State) {
    let (stretch, next) = two(random, state);
    state.returns.stretches[next].start = stretch.start + stretch.length;
}

/// The first one moves to before clock - P.
fn too_early(random: &mut Random, state: &mut State) {
    let latest = state.clock - state.table.server.period - 1;
    state.returns.stretches[0].start = if random.once_in(2) { latest } else { random.from(0, latest) };
}

/// The last one moves to behind clock - 1.
fn too_late(random: &mut Random, state: &mut State) {
    let clock = state.clock;
    let last = &mut state.returns.stretches[state.returns.held as usize - 1];
    let earliest = clock + 1 - last.length;
    let other = random.from(earliest, u32::MAX - last.length);
    let past_32_bits = u32::MAX - random.from(0, last.length - 1);
    last.start = random.pick(&[earliest, earliest, clock, other, past_32_bits]);
}

/// One of 2^32 - 1 ticks, and the next one longer by as much as it seems shorter: sums of 32 bits see nothing.
fn long_past_32_bits(random: &mut Random, state: &mut State) {
    let (stretch, next) = two(random, state);
    state.returns.stretches[next - 1].length = u32::MAX;
    state.returns.stretches[next].start -= stretch.length + 1;
    state.returns.stretches[next].length += stretch.length + 1;
}

const SUM: &str = "held ticks plus b";
const COUNT_33: &str = "33 stretches";
const COUNT_MORE: &str = "more than 33 stretches";
const EMPTY: &str = "empty";
const ORDER: &str = "out of order";
const OVERLAP: &str = "overlapping";
const TOUCH: &str = "touching";
const EARLY: &str = "before the last P ticks";
const LATE: &str = "after the last P ticks";
const WIDE_END: &str = "an end past 32 bits";
const WIDE_LENGTH: &str = "a length past 32 bits";

/// What can make a state of kind 4 unfit and nothing else. The last two are for sums of 32 bits: such a state would be fit by them.
pub const CLAUSES: [&str; 11] = [SUM, COUNT_33, COUNT_MORE, EMPTY, ORDER, OVERLAP, TOUCH, EARLY, LATE, WIDE_END, WIDE_LENGTH];

/// The clauses of kind 4 that a state breaks, each read off document 02 for itself, and off every pair of stretches. With `wide` false the
/// sums have 32 bits.
pub fn broken(state: &State, wide: bool) -> Vec<&'static str> {
    let (returns, server, clock) = (&state.returns, state.table.server, state.clock as u64);
    let used = &returns.stretches[..returns.held.min(STRETCHES as u32) as usize];
    let sum = |a: u64, b: u64| if wide { a + b } else { (a as u32).wrapping_add(b as u32) as u64 };
    let ends: Vec<(u64, u64)> = used.iter().map(|s| (s.start as u64, sum(s.start as u64, s.length as u64))).collect();
    let held = used.iter().fold(state.service.budget as u64, |held, s| sum(held, s.length as u64));
    let pairs = || ends.iter().enumerate().flat_map(|(i, &a)| ends[i + 1..].iter().map(move |&b| (a, b)));
    let clauses = [
        (SUM, held != server.budget as u64),
        (COUNT_33, returns.held == 33),
        (COUNT_MORE, returns.held > 33),
        (EMPTY, used.iter().any(|s| s.length == 0)),
        (ORDER, pairs().any(|(a, b)| b.0 < a.0)),
        (OVERLAP, pairs().any(|(a, b)| a.0 < b.1 && b.0 < a.1)),
        (TOUCH, pairs().any(|(a, b)| a.1 == b.0 || b.1 == a.0)),
        (EARLY, ends.iter().any(|s| s.0 + (server.period as u64) < clock)),
        (LATE, ends.iter().any(|s| s.1 > clock)),
    ];
    clauses.into_iter().filter(|&(_, broken)| broken).map(|(clause, _)| clause).collect()
}

/// The clause of kind 4 that alone makes a state unfit, if one does.
pub fn unfit_by(state: &State) -> Option<&'static str> {
    if state.table.server.kind != RETURNING || !fit_as_polling(state) {
        return None;
    }
    match (&broken(state, true)[..], broken(state, false).is_empty()) {
        ([], _) => None,
        ([LATE], true) => Some(WIDE_END),
        ([clause], _) => Some(clause),
        (_, narrow) => narrow.then_some(WIDE_LENGTH),
    }
}

/// What document 01 asks of a state of any kind. A poller's limits are those of kind 4.
pub fn fit_as_polling(state: &State) -> bool {
    let mut other = *state;
    other.table.server.kind = POLLING;
    other.is_fit()
}

const FULL: &str = "32 held";
const BLOCKED: &str = "32 held and blocked";
const GROWS: &str = "32 held and the last one made longer";
const SHORTER: &str = "32 held, blocked, and the first one made shorter";
const FREED: &str = "32 held, a place freed and taken in the tick";
const LAST_PLACE: &str = "31 held and the last place taken";

/// What a tick can show of kind 4.
pub const SHOWN: [&str; 6] = [FULL, BLOCKED, GROWS, SHORTER, FREED, LAST_PLACE];

/// Whether the last stretch held ends with the tick before this one.
pub fn goes_on(returns: &Returns, tick: u32) -> bool {
    returns.held > 0 && {
        let last = returns.stretches[returns.held as usize - 1];
        last.start + last.length == tick
    }
}

/// Whether 32 are held, between steps 3 and 4, and the tick would open another.
pub fn no_place(within: &State) -> bool {
    within.table.server.kind == RETURNING && within.returns.held == 32 && !goes_on(&within.returns, within.clock)
}

/// What the next tick of a state shows of kind 4, between steps 3 and 4; nothing if it is refused. "Blocked" is a tick that only the want
/// of a place keeps the server from.
pub fn shown(before: &State) -> Vec<&'static str> {
    if before.table.server.kind != RETURNING || before.clock >= CLOCK_LAST || !before.is_fit() {
        return Vec::new();
    }
    let mut within = *before;
    let opened = within.begin_tick();
    let (was, held) = (before.returns.held, within.returns.held);
    let wanted = opened.above.is_none() && within.waiting > 0 && within.service.budget > 0;
    let grows = goes_on(&within.returns, within.clock);
    let blocked = wanted && no_place(&within);
    let all = [
        (FULL, held == 32),
        (BLOCKED, blocked),
        (GROWS, wanted && held == 32 && grows),
        (SHORTER, blocked && within.service.budget > before.service.budget),
        (FREED, wanted && was == 32 && held == 31 && !grows),
        (LAST_PLACE, wanted && was == 31 && held == 31 && !grows),
    ];
    all.into_iter().filter(|&(_, holds)| holds).map(|(what, _)| what).collect()
}
