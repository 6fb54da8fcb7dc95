//! Numbers at the edges of the powers of ten, of which the digits of what is printed are made: "Nothing printed moves by a byte" (document
//! 02, 7/13).

use std::collections::HashSet;

use crate::plan::text;

/// The last number with 1 to 9 digits and the first with one more, of each, and the largest of all.
pub fn edges() -> Vec<u32> {
    let powers = (1..10).map(|digits| 10_u32.pow(digits));
    powers.flat_map(|power| [power - 1, power]).chain([u32::MAX]).collect()
}

/// As many ids as may wait, the edges first.
pub fn taken() -> Vec<u32> {
    edges().into_iter().chain([0, 1, 1_234_567_890, 2_147_483_648, 4_294_967_294]).collect()
}

/// The last of the ticks of the longest run.
pub const LAST_TICK: u32 = 999_999;

/// A plan that prints each edge as the id of a request that is served and of one that is refused, and those up to the last tick as ticks.
pub fn plan() -> Vec<u8> {
    let table = ["T,0,60000,1,60000".to_string(), "S,0,1,0,0".to_string()];
    let requests = taken().into_iter().chain(edges()).map(|id| format!("A,1,{id},1"));
    text(&table.into_iter().chain(requests).chain([format!("R,{}", LAST_TICK + 1)]).collect::<Vec<_>>())
}

const IDS: &str = "each power's edge as an id";
const REFUSED: &str = "each power's edge as a refused id";
const TICKS: &str = "each power's edge up to 999999 as a tick";

/// What a plan's output can show.
pub const SHOWN: [&str; 3] = [IDS, REFUSED, TICKS];

/// What a plan's output shows.
pub fn shown(printed: &[u8]) -> Vec<&'static str> {
    let (mut ids, mut refused, mut ticks) = (HashSet::new(), HashSet::new(), HashSet::new());
    for line in String::from_utf8_lossy(printed).lines() {
        let number = |field: &str| field.parse::<u32>().ok();
        match line.split(',').collect::<Vec<_>>()[..] {
            ["X", tick, "A", id, _] => {
                ticks.insert(number(tick));
                ids.insert(number(id));
            }
            ["X", tick, ..] => {
                ticks.insert(number(tick));
            }
            ["N", _, id, _] => {
                refused.insert(number(id));
            }
            _ => (),
        }
    }
    let all_up_to = |most: u32, seen: &HashSet<_>| edges().into_iter().filter(|&edge| edge <= most).all(|edge| seen.contains(&Some(edge)));
    let all = [(IDS, all_up_to(u32::MAX, &ids)), (REFUSED, all_up_to(u32::MAX, &refused)), (TICKS, all_up_to(LAST_TICK, &ticks))];
    all.into_iter().filter(|&(_, holds)| holds).map(|(what, _)| what).collect()
}
