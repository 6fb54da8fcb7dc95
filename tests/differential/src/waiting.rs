//! What calls and plans show of the queue's limit, 24 (document 02, 6/13). The figures stand here for themselves.

use second::State;

/// How calls can end with the limit and its edges waiting, and with as many as document 01 lets wait.
pub const SHOWN_BY_CALLS: [&str; 16] = [
    "request done with 23 waiting",
    "request refused 5 with 24 waiting",
    "request refused 11 with 25 waiting",
    "request refused 11 with 64 waiting",
    "tick done with 23 waiting",
    "tick done with 24 waiting",
    "tick refused 11 with 25 waiting",
    "tick refused 11 with 64 waiting",
    "run done with 23 waiting",
    "run done with 24 waiting",
    "run refused 11 with 25 waiting",
    "run refused 11 with 64 waiting",
    "waiting call done with 23 waiting",
    "waiting call done with 24 waiting",
    "waiting call refused 11 with 25 waiting",
    "waiting call refused 11 with 64 waiting",
];

/// Which of these a call shows, if all but the count is fit in its state.
pub fn shown_by_call(state: &State, ending: &str) -> Option<&'static str> {
    let words = format!("{ending} with {} waiting", state.waiting);
    let fit_otherwise = || State { waiting: state.waiting.min(24), ..*state }.is_fit();
    SHOWN_BY_CALLS.into_iter().find(|&shown| shown == words && fit_otherwise())
}

const ONE_SHORT: &str = "tick with 23 waiting";
const FULL: &str = "tick with 24 waiting";
const NONE_REFUSED: &str = "24 presented in one tick, none refused";
const ONE_REFUSED: &str = "25 presented in one tick, one refused";
const MANY_REFUSED: &str = "about 100 presented in one tick, all but 24 refused";
const PLACES_TAKEN: &str = "some taken and some refused in one tick, where others wait";

/// What the ticks of plans can show.
pub const SHOWN_BY_PLANS: [&str; 6] = [ONE_SHORT, FULL, NONE_REFUSED, ONE_REFUSED, MANY_REFUSED, PLACES_TAKEN];

/// What a tick of a plan shows: how many requests were presented before it, how many of them refused, and how many wait as it begins.
pub fn shown_by_tick(presented: u32, refused: u32, waiting: u32) -> Vec<&'static str> {
    let taken = presented - refused;
    let all = [
        (ONE_SHORT, waiting == 23),
        (FULL, waiting == 24),
        (NONE_REFUSED, presented == 24 && refused == 0),
        (ONE_REFUSED, presented == 25 && refused == 1),
        (MANY_REFUSED, (90..=110).contains(&presented) && taken == 24),
        (PLACES_TAKEN, refused > 0 && (1..24).contains(&taken)),
    ];
    all.into_iter().filter(|&(_, holds)| holds).map(|(what, _)| what).collect()
}
