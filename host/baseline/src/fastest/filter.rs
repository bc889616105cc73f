//! A table that tells of most dots at one look whether they are in the tombstone.

use crate::dot::Dot;
use crate::form::Dead;
use crate::tombstone::Tombstone;

/// Cells of the table.
const CELLS: usize = 512;
/// What a cell says that has no dot.
const NONE: u8 = u8::MAX;
/// What a cell says that has several dots.
const SEVERAL: u8 = u8::MAX - 1;

/// The tombstone behind the table. A cell that has one dot says its slot.
pub struct Filter<'a> {
    cells: [u8; CELLS],
    tombstone: Tombstone<'a>,
}

/// The cell of a dot: dots of one actor that follow each other have different cells.
#[inline(always)]
fn cell(dot: Dot) -> usize {
    (dot.counter as usize).wrapping_add(usize::from(dot.actor) * 32) % CELLS
}

impl<'a> Dead<'a> for Filter<'a> {
    fn of(tombstone: Tombstone<'a>) -> Filter<'a> {
        let mut cells = [NONE; CELLS];
        for (slot, dot) in tombstone.dots().enumerate() {
            let cell = &mut cells[cell(dot)];
            *cell = match *cell {
                NONE => slot as u8,
                _ => SEVERAL,
            };
        }
        Filter { cells, tombstone }
    }

    #[inline(always)]
    fn has(&self, dot: Dot) -> bool {
        match self.cells[cell(dot)] {
            NONE => false,
            SEVERAL => self.tombstone.has(dot),
            slot => self.tombstone.is_at(usize::from(slot), dot),
        }
    }
}
