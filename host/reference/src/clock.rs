//! The clock as the set of seen events of each actor. Its one form, base and window, is
//! computed from that set; numbers are u128 here, so nothing wraps near the largest counter.

use crate::dot::{Actor, Dot};
use crate::limits::{ACTOR_MAX, CLOCK_WORDS, COUNTER_MAX, ROW_WORDS, WINDOW};
use std::collections::{BTreeMap, BTreeSet};

/// The seen events of one actor: 1 to `run`, and those of `above`, all greater than `run`.
#[derive(Clone)]
struct Events {
    run: u128,
    above: BTreeSet<u128>,
}

impl Events {
    /// Reads a row. None if bit 0 is set or the window names an event past the largest counter.
    fn from_row(base: u64, window: u64) -> Option<Events> {
        let run = u128::from(base);
        let above: BTreeSet<u128> = (0..WINDOW)
            .filter(|i| window >> i & 1 == 1)
            .map(|i| run + 1 + i)
            .collect();
        let sound = above.iter().all(|e| *e != run + 1 && *e <= COUNTER_MAX);
        sound.then_some(Events { run, above })
    }

    fn has(&self, event: u128) -> bool {
        event <= self.run || self.above.contains(&event)
    }

    fn insert(&mut self, event: u128) {
        if event > self.run {
            self.above.insert(event);
        }
    }

    /// The end of the unbroken run from 1.
    fn unbroken(&self) -> u128 {
        let mut end = self.run;
        while self.above.contains(&(end + 1)) {
            end += 1;
        }
        end
    }

    /// The one form. None if an event lies more than `WINDOW` above the unbroken run (answer 10).
    fn row(&self) -> Option<(u64, u64)> {
        let base = self.unbroken();
        let mut window = 0;
        for event in self.above.iter().filter(|e| **e > base) {
            if *event > base + WINDOW {
                return None;
            }
            window |= 1u64 << (*event - base - 1);
        }
        Some((u64::try_from(base).ok()?, window))
    }
}

/// The seen events of all actors.
#[derive(Clone)]
pub struct Clock {
    events: BTreeMap<Actor, Events>,
}

impl Clock {
    /// Reads the rows of all actors; none if one of them is damaged.
    pub fn from_rows(rows: &[u64; CLOCK_WORDS]) -> Option<Clock> {
        let mut events = BTreeMap::new();
        for (actor, row) in (1..=ACTOR_MAX).zip(rows.chunks(ROW_WORDS)) {
            events.insert(Actor::new(actor)?, Events::from_row(row[0], row[1])?);
        }
        Some(Clock { events })
    }

    /// The rows of the one form; none if a dot is out of reach (answer 10).
    pub fn rows(&self) -> Option<[u64; CLOCK_WORDS]> {
        let mut rows = [0; CLOCK_WORDS];
        for (row, events) in rows.chunks_mut(ROW_WORDS).zip(self.events.values()) {
            let (base, window) = events.row()?;
            row[0] = base;
            row[1] = window;
        }
        Some(rows)
    }

    pub fn sees(&self, dot: Dot) -> bool {
        let event = u128::from(dot.counter.number());
        self.events.get(&dot.actor).is_some_and(|e| e.has(event))
    }

    pub fn insert(&mut self, dot: Dot) {
        if let Some(events) = self.events.get_mut(&dot.actor) {
            events.insert(u128::from(dot.counter.number()));
        }
    }

    /// The end of the actor's unbroken run: its base in the one form.
    pub fn base(&self, actor: Actor) -> u128 {
        self.events.get(&actor).map_or(0, Events::unbroken)
    }

    /// True if the actor's window is 0: nothing seen above the unbroken run.
    pub fn window_is_empty(&self, actor: Actor) -> bool {
        let base = self.base(actor);
        let events = self.events.get(&actor);
        events.is_none_or(|e| e.above.iter().all(|event| *event <= base))
    }
}
