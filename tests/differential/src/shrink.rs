//! Makes a failing plan small: drops lines, then makes numbers smaller and takes zeros before them away, as long as it still fails.

use std::time::{Duration, Instant};

/// How many plans may be tried on the way, and for how long.
const TRIES: usize = 3_000;
const TIME: Duration = Duration::from_secs(10);

struct Shrinker<F> {
    fails: F,
    tries: usize,
    begun: Instant,
    lines: Vec<Vec<u8>>,
}

pub fn shrink(plan: &[u8], fails: impl Fn(&[u8]) -> bool) -> Vec<u8> {
    let lines = plan.split_inclusive(|&byte| byte == b'\n').map(<[u8]>::to_vec).collect();
    let mut shrinker = Shrinker { fails, tries: 0, begun: Instant::now(), lines };
    // The ticks first: with fewer of them each further try is quicker.
    if let Some(last) = shrinker.lines.len().checked_sub(1) {
        shrinker.shorten_line(last);
    }
    while shrinker.drop_lines() | shrinker.shorten_numbers() {}
    shrinker.lines.concat()
}

impl<F: Fn(&[u8]) -> bool> Shrinker<F> {
    /// Takes the smaller lines if the plan still fails with them.
    fn keep(&mut self, smaller: Vec<Vec<u8>>) -> bool {
        self.tries += 1;
        let fails = self.tries <= TRIES && self.begun.elapsed() < TIME && (self.fails)(&smaller.concat());
        if fails {
            self.lines = smaller;
        }
        fails
    }

    /// Halves first, then quarters, down to single lines.
    fn drop_lines(&mut self) -> bool {
        let mut dropped = false;
        let mut size = self.lines.len();
        while size > 0 {
            let mut from = 0;
            while from < self.lines.len() {
                let mut smaller = self.lines.clone();
                smaller.drain(from..(from + size).min(smaller.len()));
                if self.keep(smaller) {
                    dropped = true;
                } else {
                    from += size;
                }
            }
            size /= 2;
        }
        dropped
    }

    fn shorten_numbers(&mut self) -> bool {
        (0..self.lines.len()).fold(false, |shortened, line| shortened | self.shorten_line(line))
    }

    fn shorten_line(&mut self, line: usize) -> bool {
        let fields = self.lines[line].split(|&byte| byte == b',').count();
        (1..fields).fold(false, |shortened, field| shortened | self.shorten(line, field))
    }

    fn shorten(&mut self, line: usize, field: usize) -> bool {
        let mut shortened = false;
        while shorter(self.field(line, field)).iter().any(|text| self.keep(self.with(line, field, text))) {
            shortened = true;
        }
        shortened
    }

    fn field(&self, line: usize, field: usize) -> &[u8] {
        let bare = self.lines[line].strip_suffix(b"\n").unwrap_or(&self.lines[line]);
        bare.split(|&byte| byte == b',').nth(field).unwrap_or_default()
    }

    fn with(&self, line: usize, field: usize, text: &str) -> Vec<Vec<u8>> {
        let mut lines = self.lines.clone();
        let closed = lines[line].ends_with(b"\n");
        let bare = lines[line].strip_suffix(b"\n").unwrap_or(&lines[line]);
        let mut fields: Vec<Vec<u8>> = bare.split(|&byte| byte == b',').map(<[u8]>::to_vec).collect();
        fields[field] = text.as_bytes().to_vec();
        lines[line] = fields.join(&b',');
        if closed {
            lines[line].push(b'\n');
        }
        lines
    }
}

/// What to try for a number: smaller ones; the same with fewer zeros before it; smaller ones of as many digits, since a plan may fail by
/// its zeros.
fn shorter(field: &[u8]) -> Vec<String> {
    let Some(number) = std::str::from_utf8(field).ok().and_then(|text| text.parse::<u64>().ok()) else { return Vec::new() };
    let (digits, least) = (field.len(), number.to_string().len());
    let smaller: Vec<u64> = [0, 1, number / 2, number.saturating_sub(1)].into_iter().filter(|&smaller| smaller < number).collect();
    let fewer = [least, least + 1, digits - 1].into_iter().filter(|fewer| (least..digits).contains(fewer));
    let as_wide = smaller.iter().filter(|_| least < digits);
    let mut texts: Vec<String> = smaller.iter().map(u64::to_string).collect();
    texts.extend(fewer.map(|fewer| format!("{number:0fewer$}")));
    texts.extend(as_wide.map(|smaller| format!("{smaller:0digits$}")));
    texts
}
