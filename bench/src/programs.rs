//! The programs end to end: the same plan through `schedule` and through the second implementation's program.

use std::fs;
use std::io::Write;
use std::process::{Command, Stdio};
use std::time::Instant;

const GOES: usize = 3;
const FOLDER: &str = "target/bench";

fn plan(tasks: u32, requests: u32) -> String {
    let mut text = String::new();
    for i in 0..tasks {
        let period = 20 + 4 * i;
        text += &format!("T,{i},{period},1,{period}\n");
    }
    text += &format!("S,3,{},10,3\n", tasks / 2);
    for i in 0..requests {
        text += &format!("A,{},{i},7\n", i * 300);
    }
    text + "R,1000000\n"
}

/// Seconds, kilobytes at the peak by GNU time (a child of this process would begin with this one's peak), and what it printed.
fn once(program: &str, plan: &str, to: &str) -> (f64, String, Vec<u8>) {
    let (path, peak) = (format!("{FOLDER}/{to}"), format!("{FOLDER}/peak.txt"));
    let start = Instant::now();
    let mut child = Command::new("/usr/bin/time")
        .args(["-f", "%M", "-o", &peak, program])
        .stdin(Stdio::piped())
        .stdout(fs::File::create(&path).expect("target is writable"))
        .spawn()
        .expect("GNU time and the program start");
    child.stdin.take().expect("a pipe").write_all(plan.as_bytes()).expect("the program reads");
    child.wait().expect("the program ends");
    let seconds = start.elapsed().as_secs_f64();
    let peak = fs::read_to_string(&peak).expect("what time wrote").trim().to_string();
    (seconds, peak, fs::read(&path).expect("what it wrote"))
}

pub fn print(product: &str, second: &str) {
    fs::create_dir_all(FOLDER).expect("target is writable");
    println!("## 1,000,000 ticks end to end\n");
    println!("| plan | schedule, s | second, s | schedule/second | schedule, peak kB | second, peak kB |");
    println!("|---|---|---|---|---|---|");
    for (tasks, requests) in [(1, 0), (1, 3_000), (16, 0), (16, 3_000)] {
        let plan = plan(tasks, requests);
        let (mut p, mut s) = (f64::INFINITY, f64::INFINITY);
        let (mut p_peak, mut s_peak) = (String::new(), String::new());
        for _ in 0..GOES {
            let (a, b) = (once(product, &plan, "product.txt"), once(second, &plan, "second.txt"));
            assert!(a.2 == b.2, "the two programs print the same");
            (p, p_peak) = (p.min(a.0), a.1);
            (s, s_peak) = (s.min(b.0), b.1);
        }
        println!("| {tasks} task{}, {requests} requests | {p:.2} | {s:.2} | {:.2} | {p_peak} | {s_peak} |", if tasks == 1 { "" } else { "s" }, p / s);
    }
    println!();
}
