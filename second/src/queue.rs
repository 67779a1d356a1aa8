//! The waiting queue of one cell: what the rules ask of an engine that keeps it, and the plain engine.

use crate::numbers::{row_in_range, ROOM, ROW};

/// An engine: how the row of a cell keeps its queue. Slot k holds the water that is due in k accepted steps.
pub trait Queue: Clone {
    /// Stored numbers per cell.
    const ROW: usize;

    /// The stored numbers of one cell, each in its range.
    fn row_in_range(row: &[u32], delays: u32) -> bool;

    /// The queue that a row in range keeps.
    fn of(row: &[u32]) -> Self;

    /// Put the queue into its row.
    fn write(&self, row: &mut [u32]);

    /// 1. Shift: slot 1 is released, each other slot becomes the one before it, slot M empties.
    fn shift(&mut self, delays: usize) -> i64;

    /// 7. Draw a lack from slots 1, 2, .. M in that order, each as far as it goes: what they gave.
    fn draw(&mut self, lack: i64, delays: usize) -> i64;

    /// 10. Water joins slot k, one of 1 to M.
    fn join(&mut self, k: usize, water: i64, delays: usize);

    /// The water of all slots.
    fn total(&self) -> i64;
}

/// The plain engine, which moves its water: slot k stands at place k - 1.
pub type Slots = [i64; ROOM];

impl Queue for Slots {
    const ROW: usize = ROW;

    fn row_in_range(row: &[u32], delays: u32) -> bool {
        row_in_range(row, delays)
    }

    fn of(row: &[u32]) -> Slots {
        places_of(row)
    }

    fn write(&self, row: &mut [u32]) {
        write_places(self, row);
    }

    fn shift(&mut self, delays: usize) -> i64 {
        if delays == 0 {
            return 0;
        }
        let release = self[0];
        self.copy_within(1..delays, 0);
        self[delays - 1] = 0;
        release
    }

    fn draw(&mut self, lack: i64, delays: usize) -> i64 {
        draw_from(self[..delays].iter_mut(), lack)
    }

    fn join(&mut self, k: usize, water: i64, _: usize) {
        self[k - 1] += water;
    }

    fn total(&self) -> i64 {
        self.iter().sum()
    }
}

/// The 30 places of a row of any form.
pub fn places_of(row: &[u32]) -> [i64; ROOM] {
    let mut places = [0; ROOM];
    for (water, kept) in places.iter_mut().zip(&row[2..]) {
        *water = i64::from(*kept);
    }
    places
}

/// Put the 30 places into a row of any form.
pub fn write_places(places: &[i64; ROOM], row: &mut [u32]) {
    for (kept, water) in row[2..].iter_mut().zip(places) {
        *kept = *water as u32;
    }
}

/// Draw a lack from slots in the order given, each as far as it goes: what they gave.
pub fn draw_from<'a>(slots: impl Iterator<Item = &'a mut i64>, lack: i64) -> i64 {
    let mut rest = lack;
    for slot in slots {
        let drawn = rest.min(*slot);
        *slot -= drawn;
        rest -= drawn;
    }
    lack - rest
}
