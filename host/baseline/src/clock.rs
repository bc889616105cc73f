//! The clock: a base and a window for each actor.

use crate::dot::Dot;
use limits::{ACTORS, ROW_SIZE, WINDOW};

/// Events 1 to `base` are seen, and `base` + 1 + i where bit i of the window is set.
#[derive(Clone, Copy)]
pub struct Row {
    pub base: u64,
    pub window: u64,
}

impl Row {
    /// Bit 0 is clear, and no event past the largest counter is named.
    fn keeps_rule(self) -> bool {
        let highest = u64::from(u64::BITS - self.window.leading_zeros());
        self.window & 1 == 0 && self.base <= u64::MAX - highest
    }

    fn sees(self, event: u64) -> bool {
        match event.checked_sub(self.base) {
            None | Some(0) => true,
            Some(above @ 1..=WINDOW) => self.window >> (above - 1) & 1 == 1,
            Some(_) => false,
        }
    }

    /// Adds an event. False if it is out of reach.
    fn join(&mut self, event: u64) -> bool {
        let above = event.saturating_sub(self.base);
        if above == 0 {
            return true;
        }
        if above > WINDOW {
            return false;
        }
        self.window |= 1 << (above - 1);
        let run = self.window.trailing_ones();
        self.base += u64::from(run);
        self.window = self.window.checked_shr(run).unwrap_or(0);
        true
    }
}

/// The rows of all actors.
#[derive(Clone)]
pub struct Clock {
    rows: [Row; ACTORS],
}

impl Clock {
    /// Reads the rows. None if one breaks its rule.
    pub fn read(bytes: &[u8]) -> Option<Clock> {
        let mut rows = [Row { base: 0, window: 0 }; ACTORS];
        let mut sound = true;
        for (row, words) in rows.iter_mut().zip(bytes.as_chunks::<ROW_SIZE>().0) {
            let words = u128::from_be_bytes(*words);
            row.base = (words >> u64::BITS) as u64;
            row.window = words as u64;
            sound &= row.keeps_rule();
        }
        sound.then_some(Clock { rows })
    }

    /// The row of an actor that keeps its rule.
    pub fn row(&self, actor: u8) -> Row {
        self.rows[usize::from(actor) - 1]
    }

    pub fn sees(&self, dot: Dot) -> bool {
        self.row(dot.actor).sees(dot.counter)
    }

    /// Adds dots that come in ascending order. False if one is out of reach, then and there.
    #[inline(always)]
    pub fn join(&mut self, mut dots: impl Iterator<Item = Dot>) -> bool {
        dots.all(|dot| self.rows[usize::from(dot.actor) - 1].join(dot.counter))
    }
}
