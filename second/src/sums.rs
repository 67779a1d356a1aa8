//! Sums kept per cell until they are collected: what a row holds of them, collecting, and moving a site over from rows
//! without sums and back. Written from the request for them.

use crate::numbers::{old_row_in_range, row_in_range, Amounts, Card, OLD_ROW, ROW};
use crate::queue::{Queue, Slots};

/// The most that a sum may come to, in micrometres.
pub const MOST_SUMMED: u64 = 1_000_000_000_000_000_000;

/// Where the sums stand in a row: runoff high, low; drainage high, low.
const RUNOFF: usize = OLD_ROW;
const DRAINAGE: usize = OLD_ROW + 2;

/// What ran off one cell and what drained from it since the last collection.
#[derive(Clone, Copy, Debug, Default, PartialEq, Eq)]
pub struct Sums {
    pub runoff: u64,
    pub drainage: u64,
}

impl Sums {
    /// The sums that a row holds.
    pub fn of(row: &[u32]) -> Sums {
        Sums { runoff: joined(&row[RUNOFF..]), drainage: joined(&row[DRAINAGE..]) }
    }

    /// Put the sums into a row.
    pub fn write(&self, row: &mut [u32]) {
        split(self.runoff, &mut row[RUNOFF..]);
        split(self.drainage, &mut row[DRAINAGE..]);
    }

    /// Neither sum is above its limit.
    pub fn in_range(&self) -> bool {
        self.runoff <= MOST_SUMMED && self.drainage <= MOST_SUMMED
    }

    /// The sums of a row in range after an answer: its runoff and its drain are added; none where one would pass.
    pub fn with(&self, answer: &Amounts) -> Option<Sums> {
        let runoff = self.runoff + answer.runoff as u64;
        let drainage = self.drainage + answer.drain as u64;
        Some(Sums { runoff, drainage }).filter(Sums::in_range)
    }
}

/// One number of a high and a low one.
fn joined(two: &[u32]) -> u64 {
    u64::from(two[0]) << 32 | u64::from(two[1])
}

/// A high and a low number of one.
fn split(sum: u64, two: &mut [u32]) {
    two[0] = (sum >> 32) as u32;
    two[1] = sum as u32;
}

/// Give both sums of a cell and set them to 0; knows numbers 1, 2, 3 and 5 only.
pub fn collect(card: &Card, rows: &mut [u32], cell: u32) -> (u32, Sums) {
    collect_by::<Slots>(card, rows, cell)
}

/// Collecting over an engine's rows.
pub fn collect_by<Q: Queue>(card: &Card, rows: &mut [u32], cell: u32) -> (u32, Sums) {
    let number = check_collect::<Q>(card, rows, cell);
    if number != 0 {
        return (number, Sums::default());
    }
    let row = &mut rows[Q::ROW * cell as usize..];
    let sums = Sums::of(row);
    Sums::default().write(row);
    (0, sums)
}

/// The checks of collecting in their order; of the rows only the named cell's is looked at.
fn check_collect<Q: Queue>(card: &Card, rows: &[u32], cell: u32) -> u32 {
    if !card.in_range() {
        return 1;
    }
    if rows.len() != Q::ROW * card.cells as usize {
        return 2;
    }
    if cell >= card.cells {
        return 3;
    }
    let first = Q::ROW * cell as usize;
    if !Q::row_in_range(&rows[first..first + Q::ROW], card.delays) {
        return 5;
    }
    0
}

/// Move a site over: each row of 32 numbers, with both sums at 0 behind it; knows numbers 1, 2 and 5 only.
pub fn grow(card: &Card, old: &[u32], rows: &mut [u32]) -> u32 {
    let number = check_move(card, old, rows);
    if number != 0 {
        return number;
    }
    if !old.chunks(OLD_ROW).all(|row| old_row_in_range(row, card.delays)) {
        return 5;
    }
    for (row, kept) in rows.chunks_mut(ROW).zip(old.chunks(OLD_ROW)) {
        row[..OLD_ROW].copy_from_slice(kept);
        row[OLD_ROW..].fill(0);
    }
    0
}

/// Move a site back to rows of 32 numbers; 16 where a sum isn't 0, once all rows are in range.
pub fn shrink(card: &Card, rows: &[u32], old: &mut [u32]) -> u32 {
    let number = check_move(card, old, rows);
    if number != 0 {
        return number;
    }
    if !rows.chunks(ROW).all(|row| row_in_range(row, card.delays)) {
        return 5;
    }
    if rows.chunks(ROW).any(|row| Sums::of(row) != Sums::default()) {
        return 16;
    }
    for (kept, row) in old.chunks_mut(OLD_ROW).zip(rows.chunks(ROW)) {
        kept.copy_from_slice(&row[..OLD_ROW]);
    }
    0
}

/// Checks 1 and 2 of a move, the second of either slice.
fn check_move(card: &Card, old: &[u32], rows: &[u32]) -> u32 {
    if !card.in_range() {
        return 1;
    }
    let cells = card.cells as usize;
    if old.len() != OLD_ROW * cells || rows.len() != ROW * cells {
        return 2;
    }
    0
}
