//! Plans and their refusals: document 01's order of grounds, numbers with leading zeros (document 02, 4/13), and each point where one could
//! read the papers two ways.

use second::print::schedule;

const GOOD: &str = "T,0,4,1,4\nS,1,0,5,2\n";

fn gives(plan: &str, expected: &str) {
    let out = String::from_utf8(schedule(plan.as_bytes())).unwrap();
    assert_eq!(out.lines().next(), Some(expected), "for {plan:?}");
}

/// A good table, then these lines.
fn after_table(lines: &str, expected: &str) {
    gives(&format!("{GOOD}{lines}"), expected);
}

#[test]
fn ends() {
    gives("", "Z,9,1");
    gives("\n", "Z,8,1");
    gives("R,8", "Z,8,1");
    gives(GOOD, "Z,9,3");
    after_table("R,8", "Z,8,3");
    after_table("A,0,1,0\nR,8", "Z,4,3");
    after_table("R,8\nR,8", "Z,8,4");
    after_table("R,8\nR,8\n", "Z,9,4");
    after_table("R,8\n\n", "Z,8,4");
    after_table("R,8\nx\n", "Z,8,4");
    after_table("R,0\n", "B,0,3");
}

#[test]
fn grounds_on_one_line() {
    after_table("A,5,1,1\nA,4,1,0\nR,8\n", "Z,9,4");
    after_table("A,5,1,1\nA,4,1,01\nR,8\n", "Z,9,4");
    after_table("A,5,1,1\nA,4,1,00000000001\nR,8\n", "Z,8,4");
    after_table("A,5,1,1\nA,5,1,0\nR,8\n", "Z,4,4");
    after_table("A,5,1,60001\nR,8\n", "Z,4,3");
    after_table("A,5,1,60000\nR,8\n", "B,0,3");
    after_table("R,8\nA,9,1,0\n", "Z,9,4");
    after_table("R,8\nR,1000001\n", "Z,8,4");
    gives("R,1000001\n", "Z,8,1");
    gives("A,0,0,0\n", "Z,9,1");
}

#[test]
fn order_of_letters() {
    gives("T,0,4,1,4\nA,0,1,1\n", "Z,9,2");
    gives("T,0,4,1,4\nR,1\n", "Z,9,2");
    after_table("T,0,4,1,4\nR,1\n", "Z,9,3");
    after_table("S,1,0,5,2\nR,1\n", "Z,9,3");
    after_table("A,0,1,1\nT,0,4,1,4\nR,1\n", "Z,9,4");
    after_table("A,0,1,1\nS,1,0,5,2\nR,1\n", "Z,9,4");
}

#[test]
fn tables() {
    gives("S,0,0,0,0\nR,1\n", "Z,1,0");
    gives("S,9,0,0,0\nR,1\n", "Z,1,0");
    let row = "T,0,4,1,4\n";
    gives(&format!("{}S,0,16,0,0\nR,0\n", row.repeat(16)), "B,0,1");
    gives(&format!("{}T,0,0,0,0\nS,0,17,0,0\nR,0\n", row.repeat(16)), "Z,1,0");
    gives(&format!("{}S,0,17,0,0\nR,0\n", row.repeat(40)), "Z,1,0");
    gives("T,0,4,1,4294967295\nS,0,1,0,0\nR,1\n", "Z,2,0");
    gives("T,0,4,1,4\nT,0,4,5,4\nS,7,0,0,0\nR,1\n", "Z,2,0");
    for server in [
        "5,0,5,2",
        "4,2,5,2",
        "4,0,5,6",
        "4,0,5,0",
        "4,0,60001,1",
        "1,2,5,2",
        "1,0,5,6",
        "1,0,5,0",
        "1,0,60001,1",
        "0,0,0,0",
        "0,1,1,0",
        "0,1,0,1",
    ] {
        gives(&format!("T,0,4,1,4\nS,{server}\nR,1\n"), "Z,3,0");
    }
    // A bad line wins over a bad table, wherever it stands.
    gives("T,0,0,0,0\nS,9,9,9,9\nA,0,0,0\nR,1\n", "Z,4,3");
    gives("T,0,0,0,0\nS,9,9,9,9\nA,0,0,1\n", "Z,9,4");
}

#[test]
fn limits_of_a_row() {
    for row in ["60000,60000,60000,60000", "0,1,1,1"] {
        gives(&format!("T,{row}\nS,0,1,0,0\nR,1\n"), &format!("B,0,{}", row.rsplit(',').next().unwrap()));
    }
    for row in ["60001,4,1,4", "0,60001,1,4", "0,4,0,4", "0,4,3,2", "0,4,1,5", "0,0,0,0"] {
        gives(&format!("T,{row}\nS,0,1,0,0\nR,1\n"), "Z,2,0");
    }
}

#[test]
fn numbers() {
    for good in ["0", "00", "01", "10", "0000000000", "0999999999", "4294967295"] {
        after_table(&format!("A,0,{good},1\nR,1\n"), "B,0,3");
    }
    let bad = [
        "",
        "4294967296",
        "9999999999",
        "12345678901",
        "04294967295",
        "00000000000",
        "+1",
        "-1",
        " 1",
        "1 ",
        "1\r",
        "1.0",
        "0x1",
        "a",
        "\"1\"",
    ];
    for number in bad {
        after_table(&format!("A,0,{number},1\nR,1\n"), "Z,8,3");
    }
}

/// Document 01's listing: each of its numbers is one digit.
const LISTING: &str = "T,3,6,2,6\nS,2,0,5,2\nA,3,7,4\nR,8\n";

const LISTING_OUT: &str = "B,0,6\nB,S,2\nV,1\nX,0,I,0,0\nX,1,I,0,0\nX,2,I,0,0\nX,3,A,7,0\nX,4,A,7,0\nX,5,A,7,0\nX,6,A,7,0\nF,6,7,4\n\
                           X,7,T,0,0\nE,8,3,1,4,0\n";

/// The listing with one number written anew, for each number of its T, S, A and R lines, and the line that it stands in.
fn each_number(write: impl Fn(&str) -> String) -> Vec<(usize, String)> {
    let anew = |(at, digit): (usize, &str)| {
        let line = 1 + LISTING[..at].matches('\n').count();
        (line, format!("{}{}{}", &LISTING[..at], write(digit), &LISTING[at + 1..]))
    };
    LISTING.match_indices(|letter: char| letter.is_ascii_digit()).map(anew).collect()
}

/// Every number with zeros before it, ten digits in all, as the loggers write them.
fn padded(plan: &str) -> String {
    let pad = |line: &str| {
        let (letter, numbers) = line.split_once(',').expect("a letter and its numbers");
        numbers.split(',').fold(letter.to_string(), |line, number| format!("{line},{number:0>10}")) + "\n"
    };
    plan.lines().map(pad).collect()
}

#[test]
fn one_number_padded() {
    for digits in 1..=10 {
        for (_, plan) in each_number(|digit| format!("{digit:0>digits$}")) {
            assert_eq!(schedule(plan.as_bytes()), LISTING_OUT.as_bytes(), "for {plan:?}");
        }
    }
}

/// What 0 gives in each place, however many zeros it has.
#[test]
fn zeros_alone() {
    let row = ["B,0,6", "Z,2,0", "Z,2,0", "Z,2,0"];
    let server = ["Z,3,0", "B,0,6", "Z,3,0", "Z,3,0"];
    let arrival = ["B,0,6", "B,0,6", "Z,4,3"];
    let run = ["B,0,6"];
    let expected = [&row[..], &server, &arrival, &run].concat();
    let plain = each_number(|_| "0".to_string());
    for zeros in ["00", "0000000000"] {
        let plans = each_number(|_| zeros.to_string());
        assert_eq!(plans.len(), expected.len());
        for (i, (_, plan)) in plans.iter().enumerate() {
            gives(plan, expected[i]);
            assert_eq!(schedule(plan.as_bytes()), schedule(plain[i].1.as_bytes()), "for {plan:?}");
        }
    }
}

#[test]
fn no_number() {
    let texts = [
        "",
        "00000000000",
        "00000000003",
        "000000000003",
        "04294967295",
        "4294967296",
        "9999999999",
        "+3",
        "-3",
        " 3",
        "3 ",
        "+000000003",
        "-000000003",
        " 000000003",
        "000000003 ",
        "00000 0003",
        "0,000000003",
        "0x00000003",
        "00000003.0",
    ];
    for text in texts {
        for (line, plan) in each_number(|_| text.to_string()) {
            gives(&plan, &format!("Z,8,{line}"));
        }
    }
}

#[test]
fn limits_keep_to_the_value() {
    for (ticks, first) in [("1000000", "B,0,3"), ("0001000000", "B,0,3"), ("1000001", "Z,8,3"), ("0001000001", "Z,8,3")] {
        after_table(&format!("R,{ticks}\n"), first);
    }
    after_table("A,0,1,0000060000\nR,1\n", "B,0,3");
    after_table("A,0,1,0000060001\nR,1\n", "Z,4,3");
    gives("T,0,0000060001,1,4\nS,0,1,0,0\nR,1\n", "Z,2,0");
    gives("T,0,4,1,4\nS,0000000004,0,5,2\nR,1\n", "B,0,3");
    gives("T,0,4,1,4\nS,0000000005,0,5,2\nR,1\n", "Z,3,0");
    // Ticks fall or not by their values, however they are written.
    after_table("A,0000000009,1,1\nA,10,1,1\nA,010,1,1\nR,1\n", "B,0,3");
    after_table("A,10,1,1\nA,0000000009,1,1\nR,1\n", "Z,9,4");
    after_table("A,010,1,1\nA,9,1,1\nR,1\n", "Z,9,4");
    // A zero before the digits does not make them octal.
    assert!(schedule(format!("{GOOD}R,010\n").as_bytes()).ends_with(b"\nE,10,7,3,0,0\n"));
}

#[test]
fn whole_plan_padded() {
    let listing = "T,0000000003,0000000006,0000000002,0000000006\n\
                   S,0000000002,0000000000,0000000005,0000000002\n\
                   A,0000000003,0000000007,0000000004\n\
                   R,0000000008\n";
    assert_eq!(padded(LISTING), listing);
    assert_eq!(schedule(listing.as_bytes()), LISTING_OUT.as_bytes());
    let full = format!("{GOOD}{}R,200\n", "A,3,4294967295,1\nA,3,7,1\n".repeat(40));
    let out = String::from_utf8(schedule(padded(&full).as_bytes())).unwrap();
    assert!(out.contains("\nN,3,4294967295,5\nN,3,7,5\n"));
    assert_eq!(out, String::from_utf8(schedule(full.as_bytes())).unwrap());
}

#[test]
fn whole_refused_plan_padded() {
    for (plan, expected) in [
        ("S,1,0,5,2\nR,1\n", "Z,1,0\n"),
        ("T,0,4,5,4\nS,1,0,5,2\nR,1\n", "Z,2,0\n"),
        ("T,0,4,1,4\nS,1,2,5,2\nR,1\n", "Z,3,0\n"),
        ("T,0,4,1,4\nS,1,0,5,2\nA,0,1,0\nR,1\n", "Z,4,3\n"),
        ("T,0,4,1,4\nS,1,0,5,2\nR,1000001\n", "Z,8,3\n"),
        ("T,0,4,1,4\nS,1,0,5\nR,1\n", "Z,8,2\n"),
        ("T,0,4,1,4\nS,1,0,5,2\nA,1,1,1\nA,0,1,1\nR,1\n", "Z,9,4\n"),
        ("T,0,4,1,4\nS,1,0,5,2\n", "Z,9,3\n"),
    ] {
        assert_eq!(schedule(plan.as_bytes()), expected.as_bytes());
        assert_eq!(schedule(padded(plan).as_bytes()), expected.as_bytes());
    }
}

#[test]
fn forms() {
    let lines = [
        "A,0,1",
        "A,0,1,1,1",
        "A,0,1,1,",
        "A",
        "A,",
        "AA,0,1,1",
        "a,0,1,1",
        ",0,1,1",
        " A,0,1,1",
        "A ,0,1,1",
        "A;0;1;1",
        "R",
        "R,",
        "R,1,1",
        "T,0,4,1",
        "S,1,0,5",
    ];
    for line in lines {
        after_table(&format!("{line}\nR,1\n"), "Z,8,3");
    }
    gives("T,0,4,1,4\r\nS,1,0,5,2\r\nR,1\r\n", "Z,8,1");
    gives("\u{feff}T,0,4,1,4\n", "Z,8,1");
    assert_eq!(schedule(b"T,0,4,1,4\nS,0,1,0,0\nR,\x00\n"), b"Z,8,3\n");
    assert_eq!(schedule(b"T,0,4,1,4\nS,0,1,0,0\nR,\xb2\n"), b"Z,8,3\n");
}

#[test]
fn requests_at_and_past_the_end() {
    after_table("A,8,1,1\nA,4294967295,1,1\nR,8\n", "B,0,3");
    after_table("A,8,1,0\nR,8\n", "Z,4,3");
    let out = schedule(format!("{GOOD}A,0,5,1\nA,1,6,1\nR,1\n").as_bytes());
    assert_eq!(out, b"B,0,3\nB,S,2\nV,1\nX,0,A,5,0\nF,0,5,1\nE,1,0,0,1,0\n");
}

#[test]
fn length() {
    // 65,536 bytes exactly: the table (20), R (4), and A lines of 8, 9 or 10 bytes.
    let mut plan = GOOD.to_string();
    while plan.len() + 4 + 8 + 10 <= 65_536 {
        plan.push_str("A,9,0,1\n");
    }
    while plan.len() + 4 < 65_536 {
        let rest = 65_536 - 4 - plan.len();
        plan.push_str(&format!("A,9,{},1\n", if rest % 8 == 0 { "0".to_string() } else { "1".repeat(1 + rest % 8) }));
    }
    plan.push_str("R,1\n");
    assert_eq!(plan.len(), 65_536);
    gives(&plan, "B,0,3");
    plan.push('\n');
    gives(&plan, "Z,7,0");
    gives(&"x".repeat(65_537), "Z,7,0");
    gives(&"x".repeat(65_536), "Z,8,1");
}

#[test]
fn zeros_count_in_the_length() {
    let lines = "A,0000000009,0000000000,0000000001\n".repeat(1_871);
    let plan = format!("{GOOD}{lines}A,0000000009,0000000000,01\nR,1\n");
    assert_eq!(plan.len(), 65_536);
    gives(&plan, "B,0,3");
    gives(&plan.replace("R,1\n", "R,01\n"), "Z,7,0");
}
