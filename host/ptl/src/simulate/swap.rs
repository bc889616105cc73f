//! A box dies at noon, with all that it has kept. The spare one takes its place: it loads the last image
//! that the dead one wrote, which the office has, as an actor that no box has had. What the dead box did
//! since comes to it again as any message does: others have it, or the office.

use super::day::GOODS_IN;
use super::floor::Floor;
use super::goods::BOXES;
use super::together::SPRING_BOX;
use limits::ACTOR_MAX;

/// The actor that is left for it.
const SPARE: u8 = ACTOR_MAX;

/// The box that died, and how its place was taken.
#[derive(Clone, Copy, PartialEq, Eq, Debug)]
pub struct Swap {
    pub at: usize,
    /// Calls that the dead box had kept since its image.
    age: usize,
    /// Messages that it had written or taken in since.
    written: usize,
    taken: usize,
}

/// The boxes that may fail; that of the gas springs and that of the goods-in desk do not.
pub fn may_die() -> impl Iterator<Item = usize> {
    (0..BOXES).filter(|at| ![SPRING_BOX, GOODS_IN].contains(at))
}

impl Floor<'_> {
    /// Each box that has power writes an image for the office, if it is time to.
    pub fn write_images(&mut self) {
        for at in 0..BOXES {
            if self.is_on(at) && self.stations[at].wants_image() {
                self.write_image(at);
            }
        }
    }

    fn write_image(&mut self, at: usize) {
        let answer = self.stations[at].write_image(self.engine);
        if answer != 0 {
            self.fault(at, format!("answers {answer} to an image"));
        }
    }

    /// The box dies that has written the most messages since its image.
    pub fn swap(&mut self) {
        let swaps = may_die().filter_map(|at| self.swap_of(at));
        let Some(swap) = swaps.max_by_key(|swap| swap.written) else {
            return;
        };
        let at = swap.at;
        match self.stations[at].swap(self.engine, SPARE) {
            Some(0) => {
                self.note_load(at);
                self.swapped.push(swap);
            }
            Some(answer) => self.fault(at, format!("answers {answer} to the load of an image")),
            None => {}
        }
        self.hold(at);
    }

    /// What the death of a box would take; none if it has written no image.
    fn swap_of(&self, at: usize) -> Option<Swap> {
        let station = &self.stations[at];
        let age = station.age_of_image()?;
        let since = |number: &usize| station.has_accepted(*number) && !station.is_in_image(*number);
        let since = (0..self.posted.len()).filter(since);
        let by = since.map(|number| self.posted[number].by);
        let (written, taken): (Vec<usize>, Vec<usize>) = by.partition(|by| *by == at);
        Some(Swap {
            at,
            age,
            written: written.len(),
            taken: taken.len(),
        })
    }

    /// What became of the boxes that died, in words.
    pub fn swaps_told(&self) -> String {
        let swaps = self.swapped.iter().enumerate();
        let told: Vec<String> = swaps.map(|(n, swap)| self.swap_told(swap, n > 0)).collect();
        match told.is_empty() {
            true => "No box died.".into(),
            false => told.join("\n"),
        }
    }

    fn swap_told(&self, swap: &Swap, again: bool) -> String {
        let Swap {
            at,
            age,
            written,
            taken,
        } = *swap;
        let (new, whose) = match again {
            true => ("Another one", "the spare one\nhas"),
            false => ("The spare one", "no box had\nused"),
        };
        let end = match self.agreeing()[at] {
            true => "agrees with all",
            false => "DISAGREES",
        };
        let number = at + 1;
        format!(
            "At noon box {number} died, and its flash with it. {new} took its place as actor {SPARE}, which {whose}: it \
             loaded the last image of box {number}, {age} calls old. The {written} messages that box {number} had written since\n\
             and {taken} that it had taken in came to the new one again, from others or the office; at the end it {end}."
        )
    }
}
