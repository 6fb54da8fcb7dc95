//! Times the library against the second implementation and a plain C loop, in one run. See bench/run.

mod admission;
mod programs;
mod runs;

use std::time::Instant;

/// The seconds that a piece of work takes.
fn timed(work: impl FnOnce()) -> f64 {
    let start = Instant::now();
    work();
    start.elapsed().as_secs_f64()
}

/// The least times of several goes, in which those compared take turns: the machine's other work only ever adds.
fn least<const N: usize>(goes: u32, mut turn: impl FnMut() -> [f64; N]) -> [f64; N] {
    let mut best = [f64::INFINITY; N];
    for _ in 0..goes {
        for (best, time) in best.iter_mut().zip(turn()) {
            *best = best.min(time);
        }
    }
    best
}

fn main() {
    let calls = differential::abi::linked().expect("built with the library");
    runs::print(&calls);
    admission::print(&calls);
    let programs: Vec<String> = std::env::args().skip(1).collect();
    if let [product, second] = &programs[..] {
        programs::print(product, second);
    }
}
