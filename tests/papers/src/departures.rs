//! Each cell of document 004's tables where the print departs from the rules, and why; and each tick that the print leaves idle and the
//! rules give to a request.

pub struct Departure {
    pub table: &'static str,
    /// The line, from 0 below the columns' names: a time may stand on two lines.
    pub line: usize,
    pub time: &'static str,
    pub column: &'static str,
    pub printed: &'static str,
    pub ruled: &'static str,
    pub why: &'static str,
}

const POLLED: &str = "an instant without length: the poller finds no request and gives up the rest of its budget; \
                      document 01 takes it within the tick before, \"also if a served tick leaves the queue empty\"";
const POLLED_AT_10: &str = "an instant without length: the poller finds no request and gives up its budget; \
                            the tick at 10.00 goes to the row below, as the second line at 10.00 says";
const BEGIN_KEPT: &str = "J1,8 opens at 21.00, so a new stretch begins there, as on every other such line (3.00, 6.00, .. 20.00)";
const INFINITY: &str = "the sign for infinity, read as an 8 when the table was scanned";

const fn polling(
    line: usize,
    time: &'static str,
    column: &'static str,
    printed: &'static str,
    ruled: &'static str,
    why: &'static str,
) -> Departure {
    Departure { table: "polling", line, time, column, printed, ruled, why }
}

const fn sporadic(
    line: usize,
    time: &'static str,
    column: &'static str,
    printed: &'static str,
    ruled: &'static str,
    why: &'static str,
) -> Departure {
    Departure { table: "sporadic", line, time, column, printed, ruled, why }
}

const fn scanned(line: usize, time: &'static str) -> Departure {
    sporadic(line, time, "END", "8", "∞", INFINITY)
}

pub const DEPARTURES: &[Departure] = &[
    polling(9, "5.25", "Budget", "0.25", "0", POLLED),
    polling(9, "5.25", "Run Q", "JS; J3,1[0.5]", "J3,1[0.5]", POLLED),
    polling(9, "5.25", "Execute", "JS", "J3,1", POLLED),
    polling(17, "10.00", "Execute", "JS", "J3,2", POLLED_AT_10),
    sporadic(34, "21.00", "BEGIN", "20", "21", BEGIN_KEPT),
    sporadic(34, "21.00", "END", "20.5", "∞", BEGIN_KEPT),
    scanned(0, "0.00"),
    scanned(1, "0.50"),
    scanned(2, "1.00"),
    scanned(5, "3.00"),
    scanned(6, "4.00"),
    scanned(18, "12.00"),
    scanned(19, "12.25"),
    scanned(20, "13.00"),
    scanned(23, "15.00"),
    scanned(24, "16.00"),
    scanned(28, "18.00"),
    scanned(31, "20.00"),
];

/// Ticks from one time to before another in which the print has nobody execute while a request waits: "the server is eligible (ready) for
/// execution only when it is backlogged and has budget" (document 004). By document 02, 5/13, the request has them.
pub struct Given {
    pub table: &'static str,
    pub from: &'static str,
    pub to: &'static str,
    pub request: u32,
}

const fn given(table: &'static str, from: &'static str, to: &'static str, request: u32) -> Given {
    Given { table, from, to, request }
}

pub const GIVEN: &[Given] = &[
    given("polling", "13.50", "15.00", 2),
    given("polling", "17.00", "18.00", 2),
    given("polling", "19.00", "20.00", 2),
    given("deferrable", "14.00", "15.00", 2),
    given("deferrable", "17.25", "18.00", 3),
    given("deferrable", "19.00", "20.00", 3),
    given("sporadic", "14.00", "15.00", 2),
    given("sporadic", "17.00", "18.00", 3),
    given("sporadic", "19.5", "20.00", 3),
];
