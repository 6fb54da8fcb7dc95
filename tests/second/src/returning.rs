//! What a server of kind 4 has yet to give back (document 02, 3/13): "Returns are held as unbroken stretches of served ticks, at most 32."

/// "at most 32".
pub const STRETCHES: usize = 32;

/// Served ticks that follow one another: `length` of them, the first one `start`.
#[derive(Clone, Copy, Debug, Default, PartialEq, Eq)]
pub struct Stretch {
    pub start: u32,
    pub length: u32,
}

impl Stretch {
    /// The tick after the last one; any two numbers have one.
    fn end(&self) -> u64 {
        self.start as u64 + self.length as u64
    }

    /// "at step 3 of tick u + P": the tick in which the first one comes back.
    fn due(&self, period: u32) -> u64 {
        self.start as u64 + period as u64
    }
}

/// The first `held` slots are in use, oldest first; the others keep what they held.
#[derive(Clone, Copy, Debug, PartialEq, Eq)]
pub struct Returns {
    pub stretches: [Stretch; STRETCHES],
    pub held: u32,
}

impl Returns {
    /// What a fresh state holds.
    pub const NONE: Returns = Returns { stretches: [Stretch { start: 0, length: 0 }; STRETCHES], held: 0 };

    /// The stretches in use; only for at most 32.
    fn used(&self) -> &[Stretch] {
        &self.stretches[..self.held as usize]
    }

    /// "each served tick u gives one budget tick back at step 3 of tick u + P": how many come back in tick t. Only the oldest one can be
    /// due, and one at most.
    pub(crate) fn give_back(&mut self, t: u32, period: u32) -> u32 {
        let due = self.used().first().is_some_and(|oldest| oldest.due(period) == t as u64);
        if due {
            self.oldest_tick_leaves();
        }
        due as u32
    }

    /// A stretch of one tick leaves as it stands, and the later ones move up: the slot that nobody moves into keeps what it held.
    fn oldest_tick_leaves(&mut self) {
        if self.stretches[0].length > 1 {
            self.stretches[0].start += 1;
            self.stretches[0].length -= 1;
        } else {
            self.stretches.copy_within(1..self.held as usize, 0);
            self.held -= 1;
        }
    }

    /// Whether tick t, if served, makes the last stretch longer.
    fn grows(&self, t: u32) -> bool {
        self.used().last().is_some_and(|last| last.end() == t as u64)
    }

    /// "With 32 held after step 3, the server isn't eligible for a tick that would open another."
    pub(crate) fn has_room(&self, t: u32) -> bool {
        (self.held as usize) < STRETCHES || self.grows(t)
    }

    /// Tick t was served, and there was room for it.
    pub(crate) fn serve(&mut self, t: u32) {
        if self.grows(t) {
            self.stretches[self.held as usize - 1].length += 1;
        } else {
            self.stretches[self.held as usize] = Stretch { start: t, length: 1 };
            self.held += 1;
        }
    }

    /// The grounds of refusal 11 that are a state's of kind 4 alone: `owed` is B - b, the ticks that must be held.
    pub(crate) fn fit(&self, clock: u32, period: u32, owed: u32) -> bool {
        self.held as usize <= STRETCHES
            && self.none_empty()
            && self.apart_in_order()
            && self.in_last(period, clock)
            && self.ticks() == owed as u64
    }

    fn none_empty(&self) -> bool {
        self.used().iter().all(|stretch| stretch.length > 0)
    }

    /// "out of order, overlapping, touching": a tick at least lies between each stretch and the next.
    fn apart_in_order(&self) -> bool {
        self.used().windows(2).all(|pair| pair[0].end() < pair[1].start as u64)
    }

    /// "outside the last P ticks before the clock": these are clock - P to clock - 1, so the first tick is due at the clock or after it.
    fn in_last(&self, period: u32, clock: u32) -> bool {
        self.used().iter().all(|stretch| stretch.due(period) >= clock as u64 && stretch.end() <= clock as u64)
    }

    fn ticks(&self) -> u64 {
        self.used().iter().map(|stretch| stretch.length as u64).sum()
    }
}
