//! Document 02, 7/13: "Nothing printed moves by a byte": what the second implementation prints at the edges of the powers of ten, against
//! what Rust's own formatting makes of the numbers.

use differential::digits::{edges, plan, taken, LAST_TICK};
use second::print::schedule;

#[test]
fn the_edges_are_these() {
    let some = [9, 10, 99, 100, 999, 1_000, 9_999, 10_000, 99_999, 100_000, 999_999, 1_000_000, 9_999_999, 10_000_000];
    let others = [99_999_999, 100_000_000, 999_999_999, 1_000_000_000, 4_294_967_295];
    assert_eq!(edges(), [&some[..], &others[..]].concat());
}

/// One row has the ticks 0, 60000, .., the requests taken have one each from tick 1 on, the edges presented once more are refused.
#[test]
fn numbers_are_printed_as_rust_prints_them() {
    let (taken, mut rows) = (taken(), 0);
    let mut wanted = "B,0,1\nB,S,0\nV,1\n".to_string();
    for t in 0..=LAST_TICK {
        if t == 1 {
            wanted.extend(edges().iter().map(|id| format!("N,1,{id},5\n")));
        }
        match taken.get(t.wrapping_sub(1) as usize) {
            Some(id) => wanted += &format!("X,{t},A,{id},0\nF,{t},{id},{t}\n"),
            None if t % 60_000 == 0 => {
                rows += 1;
                wanted += &format!("X,{t},T,0,0\n");
            }
            None => wanted += &format!("X,{t},I,0,0\n"),
        }
    }
    let (ticks, requests) = (LAST_TICK + 1, taken.len() as u32);
    wanted += &format!("E,{ticks},{},{rows},{requests},0\n", ticks - rows - requests);
    assert!(schedule(&plan()) == wanted.into_bytes());
}
