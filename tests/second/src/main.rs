//! `second`: reads a plan from standard input and prints what `schedule` prints.

use std::io::{self, Read, Write};

use second::plan::PLAN_MOST;

fn main() -> io::Result<()> {
    let mut text = Vec::new();
    // One byte past the limit is enough to know that a plan is too long.
    io::stdin().lock().take(PLAN_MOST as u64 + 1).read_to_end(&mut text)?;
    io::stdout().lock().write_all(&second::print::schedule(&text))
}
