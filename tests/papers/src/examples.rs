//! The worked examples of documents 000, 001, 002 and 003 that the rules cover, each as a plan and as the lines that
//! `schedule` prints if what the document says is so. A sporadic server's are also under kind 4, which gives back tick by tick.

use std::path::Path;

use crate::replay::{by_second, Idle, Tick};
use crate::{read, Report};

/// What a document says, and the lines that show it.
type Said = (&'static str, &'static [&'static str]);

pub struct Example {
    pub plan: &'static str,
    pub source: &'static str,
    /// What is so of the plan's output.
    pub agrees: &'static [Said],
    /// What is so if ticks that would be idle are withheld from requests, as the document's server does.
    pub withheld: &'static [Said],
    /// The ticks that are withheld then. By the rules a request has them (document 02, 5/13).
    pub given: &'static [u32],
    /// What differs, or what the document's text leaves out, and why.
    pub differs: &'static str,
}

pub const EXAMPLES: &[Example] = &[
    Example {
        plan: "000-polling",
        source: "000, periodic server with RM: T1 = (3, 1), T2 = (10, 4), server (2.5, 0.5), 0.8 at 0.1; a tick is 0.1",
        agrees: &[
            ("it executes from 2.5 until its budget is exhausted at 3", &["X,24,T,1,0", "X,25,A,1,0", "X,29,A,1,0", "X,30,T,0,0"]),
            ("it finishes from 5.0 to 5.3; the response is 5.2", &["X,50,A,1,0", "X,52,A,1,0", "F,52,1,52"]),
        ],
        withheld: &[],
        given: &[],
        differs: "",
    },
    Example {
        plan: "000-deferrable",
        source: "000, deferrable server with RM: the same tasks and job",
        agrees: &[("the response is 2.7", &["X,1,A,1,0", "X,5,A,1,0", "F,27,1,27"])],
        withheld: &[],
        given: &[],
        differs: "not admitted: T2's time demand with the extra budget passes 10; the document asks no admission of it, and nothing drops",
    },
    Example {
        plan: "000-deferrable-phase",
        source: "000, another example: T1 = (2, 3.5, 1.5), T2 = (6.5, 0.5), server (3, 1), 1.7 at 2.8; a tick is 0.1",
        agrees: &[(
            "with background scheduling of the deferrable server the response is 2.4",
            &["X,46,T,0,0", "X,47,A,1,0", "X,51,A,1,0", "F,51,1,24"],
        )],
        withheld: &[("without background scheduling the response is 3.7", &["X,47,I,0,0", "X,54,I,0,0", "X,60,A,1,0", "X,64,A,1,0", "F,64,1,37"])],
        given: &[47, 48, 49, 50, 51, 52, 53, 54],
        differs: "the document gives the 3.7 for RM and for a deadline-driven server, and the 2.4 for the latter; of RM it says that background scheduling can be \
                  combined with it, and gives no figure",
    },
    Example {
        plan: "000-critical-instant",
        source: "000, modified example: the same, 3 units at 65",
        agrees: &[("65 is a critical instant: T1 runs from 67 to 68.5, its deadline", &["V,1", "B,0,35", "X,669,A,1,0", "X,670,T,0,0", "X,684,T,0,0", "X,685,T,0,0"])],
        withheld: &[],
        given: &[],
        differs: "",
    },
    Example {
        plan: "000-larger-budget",
        source: "000, modified example: a budget of 1.1 in place of 1",
        agrees: &[("a larger budget would make T1 miss a deadline", &["V,0", "B,0,0", "X,685,T,0,1"])],
        withheld: &[],
        given: &[],
        differs: "",
    },
    Example {
        plan: "000-sporadic",
        source: "000 and 003, simple sporadic server with RM: T1 = (3, 0.5), T2 = (4, 1), T3 = (19, 4.5), server (5, 1.5), \
                 1 at 3, 2 at 7, 2 at 15.5; a tick is 0.5",
        agrees: &[],
        withheld: &[],
        given: &[],
        differs: "the schedule is in figures that the texts do not hold: there is nothing to compare; the rules give responses 2.5, 7 and 3.5, \
                  and no tick is idle while a job waits. The ticks of 000's Sporadic/Background Server are those of kind 3 with idle ticks given, here and in \
                  random plans (tests/papers.rs)",
    },
    Example {
        plan: "000-returning",
        source: "000, SpSL sporadic server with RM, under kind 4: the same tasks, server and jobs, and 0.5 at 6.5; a tick is 0.5",
        agrees: &[(
            "it preserves unconsumed chunks, and consumes its budget only when it executes (C2): the first job leaves 0.5 of the 1.5, which serves the fourth at 6.5",
            &["X,7,A,1,0", "X,10,A,1,0", "F,10,1,5", "X,11,T,2,0", "X,12,T,0,0", "X,13,A,4,0", "F,13,4,1"],
        )],
        withheld: &[],
        given: &[28, 35, 37],
        differs: "the schedule is in figures that the text does not hold. SpSL gives a chunk back whole, P after its te, and te may lie before the chunk's first use: by \
                  its rules the first job's 1 comes back at 8 (BEGIN 3 and P 5). Kind 4 gives each tick back P after its own use: 0.5 at 8.5 and 0.5 at 10; and \
                  it joins nothing where the periodic tasks wake (R3b). Its responses are 2.5, 0.5, 7.5 and 3.5, in the order of finishing, and with idle ticks withheld \
                  2.5, 0.5, 8 and 6.5; those of kind 3, which lets the 0.5 lapse at 5.5 and meets no idle tick, are 2.5, 3.5, 7.5 and 3.5. 000 would combine SpSL with \
                  background service too, and leaves the rules to the reader",
    },
    Example {
        plan: "001-deferrable-miss",
        source: "001, deferrable server (2, 4), task (2, 5), requests of 2 at 0, 2, 10, 12, 16",
        agrees: &[("the task misses its deadline at 15", &["X,14,T,0,0", "X,15,T,0,1"])],
        withheld: &[],
        given: &[],
        differs: "admission agrees with the point made: bound 0, not admitted",
    },
    Example {
        plan: "002-polling",
        source: "002 (tasks also in 001), polling server: T1 = (1, 4), T2 = (2, 6), server (2, 5), requests 2 at 2, 1 at 8, 2 at 12",
        agrees: &[
            ("at 0 T1; at 1 no request is pending and the capacity goes to periodic tasks", &["X,0,T,0,0", "X,1,T,1,0", "X,2,T,1,0"]),
            ("at 16 the third is preempted by T1, and the capacity is preserved", &["X,15,A,3,0", "X,16,T,0,0", "X,17,A,3,0", "F,17,3,6"]),
        ],
        withheld: &[
            ("the request of 2 waits until 5 and is then served until completion", &["X,3,I,0,0", "X,5,A,1,0", "X,6,A,1,0", "F,6,1,5"]),
            ("the second uses half of the capacity", &["X,10,A,2,0", "F,10,2,3", "X,11,I,0,0"]),
        ],
        given: &[3],
        differs: "002 prints the order T1 > T2 > TS, and tells the story of T1 > TS > T2 (periods 4, 5, 6), which is what RM gives and what this plan has; \
                  not admitted: T2's time demand is 8 in its 6 ticks, yet nothing drops; the responses 5, 3, 6 keep within 001's total delay (1 + Ca/Cs) Ts = 10; \
                  with idle ticks given they are 4, 2, 6: the first request has 3 and 5, the second the idle tick 9",
    },
    Example {
        plan: "002-polling-below",
        source: "002, the same with the order as printed, T1 > T2 > TS",
        agrees: &[],
        withheld: &[],
        given: &[9],
        differs: "the first request is then served at 3, since rows above are open until there: not what 002 tells",
    },
    Example {
        plan: "002-deferrable",
        source: "002, deferrable server: the same tasks and requests, T1 > TS > T2",
        agrees: &[
            ("at 1 the processor goes to T2", &["X,1,T,1,0"]),
            ("the first request is served at once, and the capacity is exhausted at 4", &["X,2,A,1,0", "X,3,A,1,0", "F,3,1,2", "X,4,T,0,0"]),
            ("the second is not served at 8, because T1 is active", &["X,8,T,0,0", "X,9,A,2,0", "F,9,2,2"]),
        ],
        withheld: &[],
        given: &[],
        differs: "002 tells nothing of the third request; the rules give it a response of 3; not admitted, as before, and nothing drops",
    },
    Example {
        plan: "002-sporadic",
        source: "002, sporadic server: T1 = (3, 10), T2 = (4, 15), server (2, 8) on top, requests of 2 at 2 and 7",
        agrees: &[
            ("at 0 T1; at 2 the first request preempts it and consumes the whole capacity", &["X,0,T,0,0", "X,2,A,1,0", "X,3,A,1,0", "F,3,1,2", "X,4,T,0,0"]),
        ],
        withheld: &[("the capacity comes back at 10 and serves the second", &["X,9,I,0,0", "X,10,A,2,0", "X,11,A,2,0", "F,11,2,5"])],
        given: &[9],
        differs: "002 gives back what was consumed, tA + P after; 004's simple server gives back the whole budget, and lets it lapse while idle; \
                  here each request takes the whole budget at once, so the two agree; with idle ticks given the second request has 9 and 10, response 4",
    },
    Example {
        plan: "002-returning",
        source: "002, the sporadic server's example under kind 4",
        agrees: &[
            ("at 0 T1; at 2 the first request preempts it and consumes the whole capacity", &["X,0,T,0,0", "X,1,T,0,0", "X,2,A,1,0", "X,3,A,1,0", "F,3,1,2", "X,4,T,0,0"]),
        ],
        withheld: &[
            ("the second arrives at 7, but the capacity is 0", &["X,7,T,1,0", "X,8,T,1,0", "X,9,I,0,0"]),
            ("at 10 = 2 + 8 capacity is replenished, and the second consumes it", &["X,10,A,2,0", "X,11,A,2,0", "F,11,2,5"]),
        ],
        given: &[9],
        differs: "002 gives the 2 of a request back together, at RT1 = 10 and RT2 = 18; kind 4 gives 1 back at 10 and 1 at 11, then 1 at 18 and 1 at 19. The second \
                  request uses the first two as they come, so the ticks are 002's, and those of kind 3 (002-sporadic), which gives the whole budget back at 10. With \
                  idle ticks given the request has 9 and 10 under both",
    },
    Example {
        plan: "002-returning-parts",
        source: "002, the sporadic server's rule RT = tA + P on the same tasks under kind 4; the requests are not 002's: 1 at 2, 1 at 5, 2 at 9",
        agrees: &[
            ("it preserves the capacity until a request occurs: the second is served at once", &["X,2,A,1,0", "F,2,1,1", "X,3,T,0,0", "X,5,A,2,0", "F,5,2,1"]),
        ],
        withheld: &[
            ("RA1 = 1 at RT1 = 2 + 8", &["X,9,I,0,0", "X,10,A,3,0", "X,11,T,0,0"]),
            ("RA2 = 1 at RT2 = 5 + 8", &["X,12,T,0,0", "X,13,A,3,0", "F,13,3,5"]),
        ],
        given: &[9],
        differs: "kind 3 lets the second tick of budget lapse at 3, and gives the whole budget back at 10: with idle ticks withheld its responses are 1, 6 and 10, and \
                  those here 1, 1 and 5; with idle ticks given 1, 4 and 2, and 1, 1 and 2. A request whose service a row \
                  above breaks would have both parts back at tA + P by 002, each at its own time by kind 4; 002's server is on top, and its example has no such request",
    },
];

pub fn check(dir: &Path, example: &Example, report: &mut Report) {
    let plan = read(dir, &format!("{}.plan", example.plan));
    let out = String::from_utf8(second::print::schedule(plan.as_bytes())).expect("the output is ASCII");
    let ticks = by_second(&second::plan::read(plan.as_bytes()).expect("a good plan"), Idle::Withheld);
    report.say(format!("document {}", example.source));
    check_said(example.plan, "agrees", example.agrees, &out, report);
    check_said(example.plan, "agrees with idle ticks withheld", example.withheld, &without_given(&ticks), report);
    check_given(example, &ticks, report);
    if !example.differs.is_empty() {
        report.say(format!("  note: {}", example.differs));
    }
}

fn check_said(plan: &str, agrees: &str, said: &[Said], out: &str, report: &mut Report) {
    for (says, lines) in said {
        let missing: Vec<_> = lines.iter().filter(|line| !out.lines().any(|l| l == **line)).collect();
        if missing.is_empty() {
            report.say(format!("  {agrees}: {says}"));
        } else {
            report.fault(format!("{plan}: {says}: no line {missing:?}"));
        }
    }
}

/// The X and F lines of a replay, the withheld ticks idle.
fn without_given(ticks: &[Tick]) -> String {
    let line = |tick: &Tick| {
        let (t, entry) = (tick.before.clock, tick.answer.entry);
        if tick.given().is_some() {
            return format!("X,{t},I,0,{}\n", entry.drops);
        }
        let finish = tick.answer.finish.map_or(String::new(), |finish| format!("F,{t},{},{}\n", finish.id, finish.response));
        format!("X,{t},{},{},{}\n{finish}", ["I", "T", "A"][entry.kind as usize], entry.id, entry.drops)
    };
    ticks.iter().map(line).collect()
}

fn check_given(example: &Example, ticks: &[Tick], report: &mut Report) {
    let given: Vec<u32> = ticks.iter().filter(|tick| tick.given().is_some()).map(|tick| tick.before.clock).collect();
    if given != example.given {
        report.fault(format!("{}: the ticks {given:?} are withheld, {:?} are listed", example.plan, example.given));
    } else if !given.is_empty() {
        report.say(format!("  withheld, and a request's by document 02, 5/13: ticks {given:?}"));
    }
}
