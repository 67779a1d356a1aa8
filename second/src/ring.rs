//! "A queue that doesn't move its water": the ring engine, and a site's change from plain rows to ring rows and back.
//! Written from the request for it; all that is not the queue is shared with the plain engine.

use crate::numbers::{due_in_range, row_in_range, slot_limit, OLD_ROW, RING_ROW, ROOM, ROW};
use crate::numbers::{Amounts, Card, Entry, Reading, Void};
use crate::queue::{draw_from, places_of, write_places, Queue};
use crate::step::{clear_by, enter_by, step_by, void_by};
use crate::sums::{collect_by, Sums};

/// Where the start stands in a ring row: last.
pub const START: usize = RING_ROW - 1;

/// The ring engine, whose water stays where it is: slot k stands at place (start + k - 1) modulo M.
#[derive(Clone, Copy, Debug, PartialEq, Eq)]
pub struct Ring {
    places: [i64; ROOM],
    start: usize,
}

impl Queue for Ring {
    const ROW: usize = RING_ROW;

    fn row_in_range(row: &[u32], delays: u32) -> bool {
        ring_row_in_range(row, delays)
    }

    fn of(row: &[u32]) -> Ring {
        Ring { places: places_of(row), start: row[START] as usize }
    }

    fn write(&self, row: &mut [u32]) {
        write_places(&self.places, row);
        row[START] = self.start as u32;
    }

    fn shift(&mut self, delays: usize) -> i64 {
        if delays == 0 {
            return 0;
        }
        let release = self.places[self.start];
        self.places[self.start] = 0;
        self.start = (self.start + 1) % delays;
        release
    }

    fn draw(&mut self, lack: i64, delays: usize) -> i64 {
        let (before, from_start) = self.places[..delays].split_at_mut(self.start);
        draw_from(from_start.iter_mut().chain(before), lack)
    }

    fn join(&mut self, k: usize, water: i64, delays: usize) {
        self.places[(self.start + k - 1) % delays] += water;
    }

    fn total(&self) -> i64 {
        self.places.iter().sum()
    }
}

/// The 37 stored numbers of one cell, each in its range; the start is 0 where there are no delays.
pub fn ring_row_in_range(row: &[u32], delays: u32) -> bool {
    due_in_range(row)
        && row[START] < delays.max(1)
        && places_in_range(row, delays)
        && Sums::of(row).in_range()
}

/// The places as read from a start in range, each within its slot's limit.
fn places_in_range(row: &[u32], delays: u32) -> bool {
    let (round, above) = row[2..OLD_ROW].split_at(delays as usize);
    let (before, from_start) = round.split_at(row[START] as usize);
    let slots = from_start.iter().chain(before).chain(above);
    slots.zip(1..).all(|(kept, k)| *kept <= slot_limit(k, delays))
}

/// The plain row of a ring row in range: read from its start, and without it.
pub fn read_from_start(ring: &[u32], delays: u32) -> [u32; ROW] {
    let mut row: [u32; ROW] = std::array::from_fn(|place| ring[place]);
    row[2..2 + delays as usize].rotate_left(ring[START] as usize);
    row
}

/// Set all ring rows of the site to 0; knows numbers 1 and 2 only.
pub fn clear(card: &Card, rows: &mut [u32]) -> u32 {
    clear_by::<Ring>(card, rows)
}

/// One entry of the site over ring rows, a reading or a void: its number and its ten amounts.
pub fn enter(card: &Card, soil: &[i64], rows: &mut [u32], entry: &Entry) -> (u32, Amounts) {
    enter_by::<Ring>(card, soil, rows, entry)
}

/// One reading of the site over ring rows: its number and its ten amounts.
pub fn step(card: &Card, soil: &[i64], rows: &mut [u32], r: &Reading) -> (u32, Amounts) {
    step_by::<Ring>(card, soil, rows, r)
}

/// One void of the site over ring rows: its number and its ten amounts.
pub fn void(card: &Card, soil: &[i64], rows: &mut [u32], v: &Void) -> (u32, Amounts) {
    void_by::<Ring>(card, soil, rows, v)
}

/// Give both sums of a cell and set them to 0 in its ring row; knows numbers 1, 2, 3 and 5 only.
pub fn collect(card: &Card, rows: &mut [u32], cell: u32) -> (u32, Sums) {
    collect_by::<Ring>(card, rows, cell)
}

/// Change a site to the ring engine: each plain row, with a start of 0 behind it; knows numbers 1, 2 and 5 only.
pub fn to_ring(card: &Card, rows: &[u32], ring: &mut [u32]) -> u32 {
    let number = check_change(card, rows, ring);
    if number != 0 {
        return number;
    }
    if !rows.chunks(ROW).all(|row| row_in_range(row, card.delays)) {
        return 5;
    }
    for (turned, row) in ring.chunks_mut(RING_ROW).zip(rows.chunks(ROW)) {
        turned[..ROW].copy_from_slice(row);
        turned[START] = 0;
    }
    0
}

/// Change a site to the plain engine: each ring row read from its start; knows numbers 1, 2 and 5 only.
pub fn from_ring(card: &Card, ring: &[u32], rows: &mut [u32]) -> u32 {
    let number = check_change(card, rows, ring);
    if number != 0 {
        return number;
    }
    if !ring.chunks(RING_ROW).all(|row| ring_row_in_range(row, card.delays)) {
        return 5;
    }
    for (row, turned) in rows.chunks_mut(ROW).zip(ring.chunks(RING_ROW)) {
        row.copy_from_slice(&read_from_start(turned, card.delays));
    }
    0
}

/// Checks 1 and 2 of a change of engine, the second of either slice.
fn check_change(card: &Card, rows: &[u32], ring: &[u32]) -> u32 {
    if !card.in_range() {
        return 1;
    }
    let cells = card.cells as usize;
    if rows.len() != ROW * cells || ring.len() != RING_ROW * cells {
        return 2;
    }
    0
}
