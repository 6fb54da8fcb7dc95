//! Prints the size of each struct that crosses the boundary, the offset of each of its fields, and each number, as Rust has them.

#[path = "../../examples/rust/pilqandur.rs"]
mod pilqandur;

use std::mem::size_of;

use pilqandur::*;

macro_rules! layout {
    ($name:literal, $type:ty, $($field:ident)*) => {
        println!("{} {}", $name, size_of::<$type>());
        $(println!("{}.{} {}", $name, stringify!($field), std::mem::offset_of!($type, $field));)*
    };
}

macro_rules! numbers {
    ($($name:ident)*) => {
        $(println!("{} {}", stringify!($name), $name);)*
    };
}

fn main() {
    layout!("task", Task, phase period exec deadline);
    layout!("server", Server, kind place period budget);
    layout!("table", Table, tasks n server);
    layout!("sporadic", Sporadic, tr begin nr served late above busy);
    layout!("server_state", ServerState, budget sporadic);
    layout!("progress", Progress, left server clock);
    layout!("queued", Queued, id work arrival);
    layout!("queue", Queue, requests n backlog);
    layout!("stretch", Stretch, start length);
    layout!("returns", Returns, stretches n);
    layout!("state", State, table progress queue returns);
    layout!("entry", Entry, kind id drops);
    layout!("set_up_result", SetUpResult, number index state);
    layout!("admission_result", AdmissionResult, number index bounds serverbound admitted);
    layout!("moved_result", MovedResult, number state);
    layout!("tick_result", TickResult, number kind id drops finished request response state);
    layout!("waiting_result", WaitingResult, number work);
    numbers!(MAX_TASKS MAX_WAITING MAX_STRETCHES MAX_TIME MAX_WORK MAX_BACKLOG LAST_CLOCK);
    numbers!(BACKGROUND POLLING DEFERRABLE SPORADIC RETURNING IDLE TASK REQUEST);
    numbers!(DONE TASK_COUNT BAD_TASK BAD_SERVER BAD_WORK QUEUE_FULL CLOCK_SPENT PLAN_TOO_LONG BAD_LINE LINE_MISPLACED);
    numbers!(SHORT_RECORD UNFIT_STATE);
}
