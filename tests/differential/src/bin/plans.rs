//! `plans PROGRAM [COUNT] [SEED]`: the program's output for random plans, against the second implementation, byte for byte. And against
//! itself: zeros before a plan's numbers, up to ten digits in each, change nothing of what is printed (document 02, 4/13). Plan 0, before the
//! random ones, is the same in every run: it prints numbers at the edges of the powers of ten (7/13).
//! A plan that tells them apart is made small and written to target/differential/.

use std::collections::BTreeSet;
use std::io::Write;
use std::process::{exit, Command, Stdio};
use std::sync::atomic::{AtomicBool, Ordering};
use std::thread;
use std::time::Instant;

use differential::digits;
use differential::idle;
use differential::padding::{self, padded_form, plain};
use differential::plan::plan;
use differential::program::{all_reached, count_and_seed, write, Seen};
use differential::random::Random;
use differential::returns;
use differential::shrink::shrink;
use differential::waiting;
use second::plan::{read, Plan};
use second::State;

const KINDS: [&str; 5] = ["kind 0", "kind 1", "kind 2", "kind 3", "kind 4"];

/// A plan without zeros before its numbers and the same plan with some, both given to the program.
const PAIRS: [&str; 2] = ["padded pair accepted", "padded pair refused"];

/// One plan in so many makes a pair, if it can.
const PAIRED: u64 = 3;

/// From so many plans on, each kind, all that a tick of kind 4, an idle tick, a queue at its limit, padded numbers and the edges of the
/// powers of ten can show, and such pairs are to be reached.
const ENOUGH: u64 = 5_000;

fn main() {
    let mut arguments = std::env::args().skip(1);
    let program = arguments.next().expect("the path of the program");
    let (count, seed) = count_and_seed(arguments, 20_000);
    println!("plans: {count} plans, seed {seed}");
    let start = Instant::now();
    match compare(&program, count, seed) {
        Err(index) => {
            report(&program, seed, index);
            exit(1);
        }
        Ok(seen) => {
            println!("plans: all alike in {:.1} s", start.elapsed().as_secs_f64());
            let of_idle = idle::shown_by_plans();
            let of_idle = of_idle.iter().map(String::as_str);
            let of_ticks = returns::SHOWN.into_iter().chain(of_idle).chain(waiting::SHOWN_BY_PLANS);
            let to_reach: Vec<&str> = KINDS.into_iter().chain(of_ticks).chain(padding::SHOWN).chain(digits::SHOWN).chain(PAIRS).collect();
            if !all_reached("plans", &seen, &to_reach, count, ENOUGH) {
                exit(1);
            }
        }
    }
}

/// A plan, and its padded form if the two are a pair.
struct Case {
    plan: Vec<u8>,
    padded: Option<Vec<u8>>,
}

fn case(seed: u64, index: u64) -> Case {
    let random = &mut Random::new(seed, index);
    let plan = if index == 0 { digits::plan() } else { plan(random) };
    let padded = if random.once_in(PAIRED) { padded_form(random, &plan) } else { None };
    Case { plan, padded }
}

/// The first plan that differs, if any, or what was seen. The plans are shared out between the processor's cores.
fn compare(program: &str, count: u64, seed: u64) -> Result<Seen, u64> {
    let workers = thread::available_parallelism().map_or(1, |cores| cores.get() as u64);
    let stop = AtomicBool::new(false);
    let work = |first: u64| -> Result<Seen, u64> {
        let mut seen = Seen::new();
        for index in (first..=count).step_by(workers as usize) {
            if stop.load(Ordering::Relaxed) {
                break;
            }
            let case = case(seed, index);
            let expected = second::print::schedule(&case.plan);
            let alike = |text: &Vec<u8>| run(program, text).as_ref() == Some(&expected);
            if !alike(&case.plan) || !case.padded.iter().all(alike) {
                stop.store(true, Ordering::Relaxed);
                return Err(index);
            }
            note(&mut seen, &expected);
            note_kind(&mut seen, &case.plan);
            note_numbers(&mut seen, &case, &expected);
        }
        Ok(seen)
    };
    let results: Vec<Result<Seen, u64>> = thread::scope(|scope| {
        let handles: Vec<_> = (0..workers).map(|first| scope.spawn(move || work(first))).collect();
        handles.into_iter().map(|handle| handle.join().expect("a worker ends")).collect()
    });
    let mut all = Seen::new();
    for result in results {
        for (what, times) in result? {
            *all.entry(what).or_default() += times;
        }
    }
    Ok(all)
}

/// Counts what a plan showed: a refusal by number, or drops, finishes, a full queue, admission.
fn note(seen: &mut Seen, output: &[u8]) {
    let text = String::from_utf8_lossy(output);
    let mut add = |what: String| *seen.entry(what).or_default() += 1;
    if let Some(refusal) = text.strip_prefix("Z,") {
        return add(format!("refused {}", refusal.split(',').next().unwrap_or("")));
    }
    let any = |test: &dyn Fn(&str) -> bool| text.lines().any(test);
    for (what, test) in [
        ("admitted", &(|line: &str| line == "V,1") as &dyn Fn(&str) -> bool),
        ("not admitted", &|line| line == "V,0"),
        ("with a finish", &|line| line.starts_with("F,")),
        ("with a full queue", &|line| line.starts_with("N,")),
        ("with a drop", &|line| line.starts_with("X,") && !line.ends_with(",0")),
    ] {
        if any(test) {
            add(what.to_string());
        }
    }
}

/// Counts the kind of a plan that is not refused, and what its ticks show of kind 4, of idle ticks and of the queue's limit, once for each.
fn note_kind(seen: &mut Seen, text: &[u8]) {
    let Ok(plan) = read(text) else { return };
    let mut met = BTreeSet::from([KINDS[plan.table.server.kind as usize].to_string()]);
    replay(&plan, |before, presented, refused| {
        met.extend(waiting::shown_by_tick(presented, refused, before.waiting).into_iter().map(String::from));
        met.extend(returns::shown(before).into_iter().map(String::from));
        met.extend(idle::shown(before));
    });
    for what in met {
        *seen.entry(what).or_default() += 1;
    }
}

/// Counts what a plan shows of padding, the pairs, and what its output shows of the edges of the powers of ten.
fn note_numbers(seen: &mut Seen, case: &Case, output: &[u8]) {
    let pair = case.padded.as_ref().map(|padded| PAIRS[read(padded).is_err() as usize]);
    for what in padding::shown(&case.plan).into_iter().chain(pair).chain(digits::shown(output)) {
        *seen.entry(what.to_string()).or_default() += 1;
    }
}

/// The state before each tick of a plan, by the second implementation, with the requests presented and refused before it.
fn replay(plan: &Plan, mut look: impl FnMut(&State, u32, u32)) {
    let mut state = State::set_up(plan.table).expect("a read plan's table keeps its limits");
    let mut arrivals = plan.arrivals.iter().peekable();
    for t in 0..plan.ticks {
        let (mut presented, mut refused) = (0, 0);
        while let Some(arrival) = arrivals.next_if(|arrival| arrival.tick == t) {
            presented += 1;
            // A full queue refuses, and the plan goes on.
            refused += state.request(arrival.id, arrival.work).is_err() as u32;
        }
        look(&state, presented, refused);
        state.tick().expect("a plan's ticks stay below the last clock");
    }
}

/// What the program prints, or nothing if it fails.
fn run(program: &str, plan: &[u8]) -> Option<Vec<u8>> {
    let mut child = Command::new(program).stdin(Stdio::piped()).stdout(Stdio::piped()).spawn().expect("the program starts");
    // A program may stop reading a plan that is too long: a broken pipe is no fault.
    let _ = child.stdin.take().expect("a pipe").write_all(plan);
    let output = child.wait_with_output().expect("the program ends");
    output.status.success().then_some(output.stdout)
}

/// Tells of the plan, if it differs from the second implementation; else of its padded form, which differs from the plan.
fn report(program: &str, seed: u64, index: u64) {
    let Case { plan, padded } = case(seed, index);
    let by_second = |plan: &[u8]| Some(second::print::schedule(plan));
    let by_program = |padded: &[u8]| run(program, &plain(padded));
    let name = format!("plan-{seed}-{index}");
    match padded {
        Some(padded) if run(program, &plan) == by_second(&plan) => {
            println!("plans: plan {index} of seed {seed} differs with padded numbers from what the program prints without the zeros");
            report_small(program, &name, &padded, by_program);
        }
        _ => {
            println!("plans: plan {index} of seed {seed} differs from what second prints");
            report_small(program, &name, &plan, by_second);
        }
    }
}

fn report_small(program: &str, name: &str, plan: &[u8], wanted: impl Fn(&[u8]) -> Option<Vec<u8>>) {
    let small = shrink(plan, |plan| run(program, plan) != wanted(plan));
    let or_failed = |printed: Option<Vec<u8>>| printed.unwrap_or(b"the program failed\n".to_vec());
    let (expected, printed) = (or_failed(wanted(&small)), or_failed(run(program, &small)));
    let path = write(&format!("{name}.plan"), &small);
    write(&format!("{name}.expected"), &expected);
    write(&format!("{name}.printed"), &printed);
    println!("plans: made small in {path}, with .expected and .printed");
    show(&small, &expected, &printed);
}

/// A small plan and the first line that differs, on the screen.
fn show(plan: &[u8], expected: &[u8], printed: &[u8]) {
    let line = |bytes: &[u8], i: usize| bytes.split(|&byte| byte == b'\n').nth(i).map(|line| String::from_utf8_lossy(line).into_owned());
    let first = (0..).find(|&i| line(expected, i) != line(printed, i) || line(expected, i).is_none()).unwrap_or(0);
    if plan.len() < 400 {
        print!("{}", String::from_utf8_lossy(plan));
    }
    println!("line {}: expected {:?}, the program prints {:?}", first + 1, line(expected, first), line(printed, first));
}
