//! Plans with zeros before their numbers (document 02, 4/13), and what a plan shows of such zeros.

use second::plan::{read, PLAN_MOST};
use second::refusal::{BAD_LINE, PLAN_TOO_LONG};

use crate::random::Random;

/// A number has so many digits at most, zeros before it included.
const DIGITS: usize = 10;

/// The same plan with zeros before its numbers, each by itself: none, some, or up to ten digits in all. Now and then every number has ten
/// digits, as the loggers write them.
pub fn pad(random: &mut Random, plan: &[u8]) -> Vec<u8> {
    if random.once_in(4) {
        return widen(plan, |_| DIGITS);
    }
    widen(plan, |digits| match random.below(4) {
        0 | 1 => digits,
        2 => random.from(digits as u32, DIGITS as u32) as usize,
        _ => DIGITS,
    })
}

/// `pad`, and once in a while one zero too many.
pub fn pad_or_break(random: &mut Random, plan: &[u8]) -> Vec<u8> {
    let padded = pad(random, plan);
    if random.once_in(6) {
        one_too_many(random, &padded)
    } else {
        padded
    }
}

/// Eleven digits in one of the numbers.
fn one_too_many(random: &mut Random, plan: &[u8]) -> Vec<u8> {
    let count = fields(plan).filter(|(_, field)| is_number(field)).count();
    let chosen = random.below(count.max(1));
    let mut places = 0..;
    widen(plan, |digits| if places.next() == Some(chosen) { DIGITS + 1 } else { digits })
}

/// For a plan without zeros before its numbers, the same plan with some, unless that is too long for a plan.
pub fn padded_form(random: &mut Random, plan: &[u8]) -> Option<Vec<u8>> {
    let padded = pad(random, plan);
    (plain(plan) == plan && padded != plan && padded.len() <= PLAN_MOST).then_some(padded)
}

/// The plan without zeros before its numbers, however many digits they have.
pub fn plain(plan: &[u8]) -> Vec<u8> {
    rewrite(plan, |field| {
        let zeros = field.iter().take_while(|&&digit| digit == b'0').count();
        let spare = if all_digits(field) { zeros.min(field.len() - 1) } else { 0 };
        field[spare..].to_vec()
    })
}

/// The plan with as many digits in each number as `digits` says, given those that it has. A field that is no number stays.
fn widen(plan: &[u8], mut digits: impl FnMut(usize) -> usize) -> Vec<u8> {
    rewrite(plan, |field| {
        let zeros = if is_number(field) { digits(field.len()) - field.len() } else { 0 };
        [&vec![b'0'; zeros], field].concat()
    })
}

/// The plan with each field after a line's letter written anew.
fn rewrite(plan: &[u8], mut write: impl FnMut(&[u8]) -> Vec<u8>) -> Vec<u8> {
    let line = |line: &[u8]| {
        let mut fields: Vec<Vec<u8>> = line.split(|&byte| byte == b',').map(<[u8]>::to_vec).collect();
        fields[1..].iter_mut().for_each(|field| *field = write(field));
        fields.join(&b',')
    };
    plan.split(|&byte| byte == b'\n').map(line).collect::<Vec<_>>().join(&b'\n')
}

/// The fields after a line's letter, each with that letter.
fn fields(plan: &[u8]) -> impl Iterator<Item = (&[u8], &[u8])> {
    plan.split(|&byte| byte == b'\n').flat_map(|line| {
        let mut fields = line.split(|&byte| byte == b',');
        let letter = fields.next().unwrap_or_default();
        fields.map(move |field| (letter, field))
    })
}

/// 1 to 10 digits, whatever their value.
fn is_number(field: &[u8]) -> bool {
    all_digits(field) && field.len() <= DIGITS
}

fn all_digits(field: &[u8]) -> bool {
    !field.is_empty() && field.iter().all(u8::is_ascii_digit)
}

const IN_T: &str = "padded T line";
const IN_S: &str = "padded S line";
const IN_A: &str = "padded A line";
const IN_R: &str = "padded R line";
const ZEROS: &str = "padded zeros alone";
const ALL_TEN: &str = "padded to ten digits throughout";
const TOO_LONG: &str = "refused 7 by zeros alone";
const TOO_MANY: &str = "refused 8 by zeros alone";

/// What a plan can show of padding.
pub const SHOWN: [&str; 8] = [IN_T, IN_S, IN_A, IN_R, ZEROS, ALL_TEN, TOO_LONG, TOO_MANY];

/// What a plan shows of padding: the last two if it is refused and would be accepted without the zeros, the others if it is accepted.
pub fn shown(plan: &[u8]) -> Vec<&'static str> {
    let refused = read(plan).err().map(|refused| refused.number);
    let any = |test: &dyn Fn(&[u8], &[u8]) -> bool| refused.is_none() && fields(plan).any(|(letter, field)| test(letter, field));
    let padded_in = |line: &[u8]| any(&|letter, field| letter == line && field.len() > 1 && field[0] == b'0');
    let by_zeros = |number| refused == Some(number) && read(&plain(plan)).is_ok();
    let all = [
        (IN_T, padded_in(b"T")),
        (IN_S, padded_in(b"S")),
        (IN_A, padded_in(b"A")),
        (IN_R, padded_in(b"R")),
        (ZEROS, any(&|_, field| field.len() > 1 && field.iter().all(|&digit| digit == b'0'))),
        (ALL_TEN, refused.is_none() && fields(plan).all(|(_, field)| field.len() == DIGITS)),
        (TOO_LONG, by_zeros(PLAN_TOO_LONG)),
        (TOO_MANY, by_zeros(BAD_LINE)),
    ];
    all.into_iter().filter(|&(_, holds)| holds).map(|(what, _)| what).collect()
}
