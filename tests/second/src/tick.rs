//! One tick and a run of ticks ("One tick t, in this order" in document 01).

use crate::refusal::*;
use crate::state::*;
use crate::table::*;

/// One tick in the record of a run: kind (0 idle, 1 row, 2 request), row or id, drops.
#[derive(Clone, Copy, Debug, Default, PartialEq, Eq)]
pub struct Entry {
    pub kind: u32,
    pub id: u32,
    pub drops: u32,
}

#[derive(Clone, Copy, Debug, PartialEq, Eq)]
pub struct Finish {
    pub id: u32,
    pub response: u32,
}

#[derive(Clone, Copy, Debug, PartialEq, Eq)]
pub struct Ticked {
    pub entry: Entry,
    pub finish: Option<Finish>,
}

#[derive(Clone, Copy, Debug, PartialEq, Eq)]
pub enum Occupant {
    Idle,
    Row(usize),
    /// The head request, on the server's budget.
    Served,
    /// The head request, in a tick that would be idle: no service, and no budget is taken.
    Background,
}

/// What steps 1 to 3 leave for the rest of the tick. "Open in a tick means after its step 2."
#[derive(Clone, Copy, Debug, PartialEq, Eq)]
pub struct Opened {
    pub drops: u32,
    pub above: Option<usize>,
    pub below: Option<usize>,
}

impl Opened {
    fn any(&self) -> bool {
        self.above.is_some() || self.below.is_some()
    }
}

impl State {
    /// One tick; 11, 6.
    pub fn tick(&mut self) -> Result<Ticked, u32> {
        if !self.is_fit() {
            return Err(UNFIT_STATE);
        }
        if self.clock == CLOCK_LAST {
            return Err(CLOCK_SPENT);
        }
        Ok(self.step())
    }

    /// k ticks, recorded in the first k of the lent entries; 11, 6, 10.
    pub fn run(&mut self, k: u32, entries: &mut [Entry]) -> Result<(), u32> {
        if !self.is_fit() {
            return Err(UNFIT_STATE);
        }
        if self.clock as u64 + k as u64 > CLOCK_LAST as u64 {
            return Err(CLOCK_SPENT);
        }
        if entries.len() < k as usize {
            return Err(SHORT_RECORD);
        }
        for entry in &mut entries[..k as usize] {
            *entry = self.step().entry;
        }
        Ok(())
    }

    /// The tick of a fit state whose clock is below its last value.
    fn step(&mut self) -> Ticked {
        let opened = self.begin_tick();
        self.end_tick(opened)
    }

    /// Steps 1 to 3. Between the two halves stands what a line of document 004's tables shows.
    pub fn begin_tick(&mut self) -> Opened {
        let drops = self.drop_jobs();
        self.release_jobs();
        let (place, n) = (self.table.server.place as usize, self.table.n as usize);
        let opened = Opened { drops, above: self.first_open(0, place), below: self.first_open(place, n) };
        self.replenish(&opened);
        opened
    }

    /// Steps 4 to 6.
    pub fn end_tick(&mut self, opened: Opened) -> Ticked {
        let occupant = self.occupant(&opened);
        let empty = self.waiting == 0;
        let (kind, id) = self.name(occupant);
        let finish = self.work(occupant);
        self.consume(&opened, occupant == Occupant::Served, empty);
        self.clock += 1;
        Ticked { entry: Entry { kind, id, drops: opened.drops }, finish }
    }

    /// Step 1: an open row at a deadline of its own loses its job.
    fn drop_jobs(&mut self) -> u32 {
        let mut drops = 0;
        for (row, left) in self.table.rows[..self.table.n as usize].iter().zip(&mut self.left) {
            let due = row.phase + row.deadline;
            if *left > 0 && self.clock >= due && (self.clock - due) % row.period == 0 {
                *left = 0;
                drops += 1;
            }
        }
        drops
    }

    /// Step 2: a released row opens with its whole execution.
    fn release_jobs(&mut self) {
        for (row, left) in self.table.rows[..self.table.n as usize].iter().zip(&mut self.left) {
            if self.clock >= row.phase && (self.clock - row.phase) % row.period == 0 {
                *left = row.exec;
            }
        }
    }

    fn first_open(&self, from: usize, to: usize) -> Option<usize> {
        (from..to).find(|&i| self.left[i] > 0)
    }

    /// Step 3, by kind. Background has no period to divide by.
    fn replenish(&mut self, opened: &Opened) {
        match self.table.server.kind {
            POLLING | DEFERRABLE => {
                if self.clock % self.table.server.period == 0 {
                    self.service.budget = self.table.server.budget;
                }
            }
            SPORADIC => self.replenish_sporadic(opened),
            RETURNING => self.service.budget += self.returns.give_back(self.clock, self.table.server.period),
            _ => {}
        }
    }

    fn replenish_sporadic(&mut self, opened: &Opened) {
        let t = self.clock;
        let service = &mut self.service;
        if opened.above.is_some() && !service.above {
            service.begin = t;
        }
        let due = service.served && service.nr == t && !service.late;
        let spent_late = service.late && service.budget == 0;
        let wakes = opened.any() && t > 0 && !service.busy;
        if due || spent_late || wakes {
            service.budget = self.table.server.budget;
            service.tr = t;
            service.served = false;
            service.nr = 0;
            service.late = false;
        }
    }

    /// Step 4. "At the end of step 4, for every kind, a tick that would be idle goes to the head request if there is one" (document 02,
    /// 5/13).
    fn occupant(&self, opened: &Opened) -> Occupant {
        if let Some(i) = opened.above {
            return Occupant::Row(i);
        }
        if self.waiting > 0 && self.eligible() {
            return Occupant::Served;
        }
        if let Some(i) = opened.below {
            return Occupant::Row(i);
        }
        if self.waiting > 0 {
            return Occupant::Background;
        }
        Occupant::Idle
    }

    /// A budget, and under kind 4 a place to hold the tick's return.
    fn eligible(&self) -> bool {
        self.service.budget > 0 && (self.table.server.kind != RETURNING || self.returns.has_room(self.clock))
    }

    /// The occupant as the record names it.
    fn name(&self, occupant: Occupant) -> (u32, u32) {
        match occupant {
            Occupant::Idle => (0, 0),
            Occupant::Row(i) => (1, i as u32),
            Occupant::Served | Occupant::Background => (2, self.queue[0].id),
        }
    }

    /// Step 5, first half: the occupant loses one tick of work.
    fn work(&mut self, occupant: Occupant) -> Option<Finish> {
        match occupant {
            Occupant::Idle => None,
            Occupant::Row(i) => {
                self.left[i] -= 1;
                None
            }
            Occupant::Served | Occupant::Background => self.work_on_head(),
        }
    }

    /// "a tick that goes to a request, under any kind, takes one off" (document 02, 8/13). At its last tick of work the head leaves as it
    /// stands: the slot that nobody moves into keeps what it held.
    fn work_on_head(&mut self) -> Option<Finish> {
        self.backlog -= 1;
        if self.queue[0].work > 1 {
            self.queue[0].work -= 1;
            return None;
        }
        let head = self.head_leaves();
        Some(Finish { id: head.id, response: self.clock + 1 - head.arrival })
    }

    /// Step 5, second half: the server's budget, by kind. `served` is a tick by the budget; a tick that would be idle "takes no budget,
    /// doesn't count as service and sets no sporadic or kind 4 mark" (document 02, 5/13). `empty` is the queue at step 4.
    fn consume(&mut self, opened: &Opened, served: bool, empty: bool) {
        let above = opened.above.is_some();
        match self.table.server.kind {
            POLLING => self.consume_polling(above, served, empty),
            DEFERRABLE => self.service.budget -= served as u32,
            SPORADIC => self.consume_sporadic(opened, served),
            RETURNING => self.consume_returning(served),
            _ => {}
        }
    }

    fn consume_polling(&mut self, above: bool, served: bool, empty: bool) {
        self.service.budget -= served as u32;
        let found_empty = !above && empty;
        let left_empty = served && self.waiting == 0;
        if found_empty || left_empty {
            self.service.budget = 0;
        }
    }

    /// "b starts at B and falls only by service."
    fn consume_returning(&mut self, served: bool) {
        if served {
            self.service.budget -= 1;
            self.returns.serve(self.clock);
        }
    }

    fn consume_sporadic(&mut self, opened: &Opened, served: bool) {
        let above = opened.above.is_some();
        if served {
            if !self.service.served {
                self.first_service();
            }
            self.service.budget -= 1;
        } else if !above && self.service.served && self.service.budget > 0 {
            self.service.budget -= 1;
        }
        self.service.above = above;
        self.service.busy = opened.any();
    }

    /// "First service after tr, in tick t, fixes te." The mark still tells of tick t-1.
    fn first_service(&mut self) {
        let (t, period) = (self.clock, self.table.server.period);
        let service = &mut self.service;
        let mut te = if service.above { service.tr.max(service.begin) } else { t };
        if te + period == t {
            te = t;
            service.tr = t;
        }
        service.nr = te + period;
        service.late = service.nr < t;
        service.served = true;
    }
}
