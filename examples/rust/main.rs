//! Document 01's listing from Rust: one task, a deferrable server, a request at tick 3, eight ticks; and after the run, the request and each tick
//! what a front panel shows, the ticks of work that wait. Every number that comes back is looked at.

mod pilqandur;

use pilqandur::{
    admit, present, run, set_up, tick, version, waiting, Entry, Server, State, Table, Task, DEFERRABLE, DONE, REQUEST, TASK, VERSION,
};

fn show(tick: u32, entry: Entry) {
    let letter = match entry.kind {
        TASK => 'T',
        REQUEST => 'A',
        _ => 'I',
    };
    println!("X,{tick},{letter},{},{}", entry.id, entry.drops);
}

/// The front panel.
fn panel(state: State) {
    let waits = waiting(state);
    assert_eq!(waits.number, DONE);
    println!("work waiting {}", waits.work);
}

fn main() {
    assert_eq!(version(), VERSION, "the archive and these declarations belong together");
    let mut table = Table { n: 1, server: Server { kind: DEFERRABLE, place: 0, period: 5, budget: 2 }, ..Table::default() };
    table.tasks[0] = Task { phase: 3, period: 6, exec: 2, deadline: 6 };
    let admission = admit(table);
    assert_eq!(admission.number, DONE);
    println!("B,0,{}\nB,S,{}\nV,{}", admission.bounds[0], admission.serverbound, admission.admitted);

    let up = set_up(table);
    assert_eq!(up.number, DONE);

    // three ticks at once, into a lent list
    let mut entries = [Entry::default(); 3];
    let ran = run(up.state, 3, &mut entries);
    assert_eq!(ran.number, DONE);
    for (t, entry) in entries.iter().enumerate() {
        show(t as u32, *entry);
    }
    panel(ran.state);

    let asked = present(ran.state, 7, 4);
    assert_eq!(asked.number, DONE);
    panel(asked.state);

    // five ticks one by one, which also say what they finish
    let mut state = asked.state;
    for t in 3..8 {
        let ticked = tick(state);
        assert_eq!(ticked.number, DONE);
        show(t, Entry { kind: ticked.kind, id: ticked.id, drops: ticked.drops });
        if ticked.finished == 1 {
            println!("F,{t},{},{}", ticked.request, ticked.response);
        }
        state = ticked.state;
        panel(state);
    }

    // a refusal: no work
    println!("refused {}", present(state, 8, 0).number);
}
