//! Between the second implementation's values and the library's.

use crate::abi;

pub fn to_table(table: &second::Table) -> abi::Table {
    let task = |row: second::Row| abi::Task { phase: row.phase, period: row.period, exec: row.exec, deadline: row.deadline };
    let s = table.server;
    abi::Table {
        tasks: table.rows.map(task),
        n: table.n,
        server: abi::Server { kind: s.kind, place: s.place, period: s.period, budget: s.budget },
    }
}

pub fn from_table(table: &abi::Table) -> second::Table {
    let row = |task: abi::Task| second::Row { phase: task.phase, period: task.period, exec: task.exec, deadline: task.deadline };
    let s = table.server;
    second::Table {
        rows: table.tasks.map(row),
        n: table.n,
        server: second::Server { kind: s.kind, place: s.place, period: s.period, budget: s.budget },
    }
}

pub fn to_state(state: &second::State) -> abi::State {
    let v = state.service;
    let [served, late, above, busy] = [v.served, v.late, v.above, v.busy].map(u32::from);
    let sporadic = abi::Sporadic { tr: v.tr, begin: v.begin, nr: v.nr, served, late, above, busy };
    let request = |r: second::Request| abi::Request { id: r.id, work: r.work, arrival: r.arrival };
    let stretch = |s: second::Stretch| abi::Stretch { start: s.start, length: s.length };
    abi::State {
        table: to_table(&state.table),
        progress: abi::Progress { left: state.left, server: abi::ServerState { budget: v.budget, sporadic }, clock: state.clock },
        queue: abi::Queue { requests: state.queue.map(request), n: state.waiting, backlog: state.backlog },
        returns: abi::Returns { stretches: state.returns.stretches.map(stretch), n: state.returns.held },
    }
}

pub fn from_state(state: &abi::State) -> second::State {
    let p = state.progress;
    let s = p.server.sporadic;
    let request = |r: abi::Request| second::Request { id: r.id, work: r.work, arrival: r.arrival };
    let stretch = |s: abi::Stretch| second::Stretch { start: s.start, length: s.length };
    second::State {
        table: from_table(&state.table),
        left: p.left,
        service: second::Service {
            budget: p.server.budget,
            tr: s.tr,
            begin: s.begin,
            nr: s.nr,
            served: s.served == 1,
            late: s.late == 1,
            above: s.above == 1,
            busy: s.busy == 1,
        },
        clock: p.clock,
        queue: state.queue.requests.map(request),
        waiting: state.queue.n,
        backlog: state.queue.backlog,
        returns: second::Returns { stretches: state.returns.stretches.map(stretch), held: state.returns.n },
    }
}

pub fn from_tick(tick: &abi::TickResult) -> second::Ticked {
    second::Ticked {
        entry: second::Entry { kind: tick.kind, id: tick.id, drops: tick.drops },
        finish: (tick.finished == 1).then_some(second::Finish { id: tick.request, response: tick.response }),
    }
}

pub fn to_entry(entry: second::Entry) -> abi::Entry {
    abi::Entry { kind: entry.kind, id: entry.id, drops: entry.drops }
}

pub fn from_entry(entry: abi::Entry) -> second::Entry {
    second::Entry { kind: entry.kind, id: entry.id, drops: entry.drops }
}
