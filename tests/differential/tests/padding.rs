//! Padded plans are what they are made to be, and a plan that fails by its zeros is made small.

use differential::padding::{pad_or_break, padded_form, plain};
use differential::plan::plan;
use differential::random::Random;
use differential::shrink::shrink;
use second::plan::{read, RefusedPlan};
use second::refusal::BAD_LINE;

const CASES: u64 = 20_000;

const LISTING: &[u8] = b"T,3,6,2,6\nS,2,0,5,2\nA,3,7,4\nR,8\n";

#[test]
fn reads_as_without_zeros() {
    let mut padded = 0;
    for case in 0..CASES {
        let random = &mut Random::new(1, case);
        let plan = plan(random);
        if let Some(form) = padded_form(random, &plan) {
            assert_eq!((read(&form), plain(&form)), (read(&plan), plan));
            padded += 1;
        }
    }
    assert!(padded > CASES / 2, "{padded} padded");
}

/// A good plan is broken by one zero too many alone, in the line where it stands.
#[test]
fn one_zero_too_many() {
    let mut broken = [0; 4];
    for case in 0..CASES {
        let padded = pad_or_break(&mut Random::new(2, case), LISTING);
        assert_eq!(plain(&padded), LISTING);
        match read(&padded) {
            Ok(plan) => assert_eq!(Ok(plan), read(LISTING)),
            Err(RefusedPlan { number, line }) => {
                assert_eq!(number, BAD_LINE);
                broken[line as usize - 1] += 1;
            }
        }
    }
    assert!(broken.iter().all(|&times| times > 100) && broken.iter().sum::<u64>() < CASES / 4, "{broken:?}");
}

#[test]
fn made_small() {
    let padded = b"T,0000000003,0000000006,0000000002,0000000006\nS,0000000002,0000000000,0000000005,0000000002\nR,00000000008\n";
    let digits = |plan: &[u8], digits| plan.split(|byte| b",\n".contains(byte)).any(|field| field.len() == digits);
    assert_eq!(shrink(padded, |plan| plan.starts_with(b"T") && plain(plan) != plan), b"T,0,0,0,00\n");
    assert_eq!(shrink(padded, |plan| digits(plan, 10)), b"S,0,0,0,0000000000\n");
    assert_eq!(shrink(padded, |plan| digits(plan, 11)), b"R,00000000000\n");
    assert_eq!(shrink(padded, |plan| plan.starts_with(b"T")), b"T,0,0,0,0\n");
}
