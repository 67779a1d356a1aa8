//! "The node's end of the link": the outbox of one cell, readings and voids that wait until the gateway has them.

use crate::numbers::{turn_in_range, Entry, Reading, Turn, Void};
use std::collections::VecDeque;

/// The most entries that an outbox holds.
pub const MOST_HELD: usize = 30;
/// An entry in numbers: 0 for a reading or 1 for a void, then the ten of a reading.
pub const ENTRY: usize = 11;
/// An outbox in numbers: cell, life, next count, how many it holds, then room for 30 entries.
pub const BOX: usize = 4 + ENTRY * MOST_HELD;

/// The outbox of one cell.
#[derive(Clone, Debug, PartialEq, Eq)]
pub struct Outbox {
    pub cell: u32,
    /// The present battery's life.
    pub life: u32,
    /// The next unused count.
    pub next: u32,
    /// The entries of this life that are still unheard, the oldest first.
    pub unheard: VecDeque<Entry>,
}

impl Outbox {
    /// An empty outbox at life 0; number 14 for a cell that no site has.
    pub fn fresh(cell: u32) -> Result<Outbox, u32> {
        if cell > 255 {
            return Err(14);
        }
        Ok(Outbox::at_start(cell, 0))
    }

    /// An empty outbox at the start of a life.
    fn at_start(cell: u32, life: u32) -> Outbox {
        Outbox { cell, life, next: 0, unheard: VecDeque::new() }
    }

    /// How many entries it holds.
    pub fn held(&self) -> u32 {
        self.unheard.len() as u32
    }

    /// The count of the oldest entry, or the next unused one where it holds none.
    pub fn oldest(&self) -> u32 {
        self.next - self.held()
    }

    /// The turn of this cell and life with a count.
    pub fn turn(&self, count: u32) -> Turn {
        Turn { cell: self.cell, life: self.life, count }
    }

    /// All ranges, and entries of this cell and life whose counts run up to the next unused one.
    pub fn in_form(&self) -> bool {
        let in_turn = |(entry, count): (&Entry, u32)| entry.turn() == self.turn(count);
        self.cell <= 255
            && self.life <= 65_535
            && self.next <= 1_000_000
            && self.unheard.len() <= MOST_HELD
            && self.held() <= self.next
            && self.unheard.iter().zip(self.oldest()..).all(in_turn)
    }

    /// Number 23 for an outbox out of form, before anything else is looked at.
    fn check(&self) -> Result<(), u32> {
        if !self.in_form() {
            return Err(23);
        }
        Ok(())
    }

    /// The oldest entry, for sending; none where the outbox is empty.
    pub fn offer(&self) -> Result<Option<Entry>, u32> {
        self.check()?;
        Ok(self.unheard.front().copied())
    }

    /// Take a new entry: it must have the next turn, and there must be room.
    pub fn add(&mut self, entry: &Entry) -> Result<(), u32> {
        self.check()?;
        let turn = entry.turn();
        if turn != self.turn(self.next) || !turn_in_range(&turn) {
            return Err(14);
        }
        if self.unheard.len() == MOST_HELD {
            return Err(13);
        }
        self.unheard.push_back(*entry);
        self.next += 1;
        Ok(())
    }

    /// Put a void in place of the oldest entry; false where the outbox is empty.
    pub fn replace(&mut self) -> Result<bool, u32> {
        self.check()?;
        let Some(oldest) = self.unheard.front_mut() else {
            return Ok(false);
        };
        *oldest = Entry::Void(oldest.turn());
        Ok(true)
    }

    /// Hear the gateway's life and next count: what lies below that count has reached it.
    pub fn acknowledge(&mut self, life: u32, count: u32) -> Result<(), u32> {
        self.check()?;
        if life == self.life && count > self.oldest() && count <= self.next {
            self.unheard.retain(|entry| entry.turn().count >= count);
        }
        Ok(())
    }

    /// Swap the battery: empty, and a higher life from count 0.
    pub fn swap(&mut self, life: u32) -> Result<(), u32> {
        self.check()?;
        if life <= self.life || life > 65_535 {
            return Err(14);
        }
        *self = Outbox::at_start(self.cell, life);
        Ok(())
    }

    /// The outbox of 334 numbers; 23 where they have no such entries, or anything but zeros in spare room.
    pub fn read(numbers: &[u32]) -> Result<Outbox, u32> {
        let &[cell, life, next, held, ref room @ ..] = numbers else {
            return Err(23);
        };
        let (used, spare) = room.split_at_checked(ENTRY * held as usize).ok_or(23u32)?;
        let unheard: Option<VecDeque<Entry>> = used.chunks(ENTRY).map(entry_of).collect();
        if spare.iter().any(|number| *number != 0) {
            return Err(23);
        }
        Ok(Outbox { cell, life, next, unheard: unheard.ok_or(23u32)? })
    }

    /// Put the outbox into its 334 numbers, with zeros in spare room.
    pub fn write(&self, numbers: &mut [u32]) {
        numbers.fill(0);
        numbers[..4].copy_from_slice(&[self.cell, self.life, self.next, self.held()]);
        for (place, entry) in numbers[4..].chunks_mut(ENTRY).zip(&self.unheard) {
            place.copy_from_slice(&entry_numbers(entry));
        }
    }
}

/// An entry as eleven numbers, zeros where a void has no figures.
pub fn entry_numbers(entry: &Entry) -> [u32; ENTRY] {
    let (kind, r) = match entry {
        Entry::Reading(reading) => (0, *reading),
        Entry::Void(Void { cell, life, count }) => {
            (1, Reading { cell: *cell, life: *life, count: *count, ..Reading::default() })
        }
    };
    [kind, r.cell, r.life, r.count, r.rain, r.irrig, r.septic, r.etmin, r.pet, r.amc, r.head]
}

/// The entry of eleven numbers; none for an unknown kind or a void with figures.
pub fn entry_of(numbers: &[u32]) -> Option<Entry> {
    let &[kind, cell, life, count, ref figures @ ..] = numbers else {
        return None;
    };
    let &[rain, irrig, septic, etmin, pet, amc, head] = figures else {
        return None;
    };
    let reading = Reading { cell, life, count, rain, irrig, septic, etmin, pet, amc, head };
    match kind {
        0 => Some(Entry::Reading(reading)),
        1 if figures.iter().all(|figure| *figure == 0) => Some(Entry::Void(reading.turn())),
        _ => None,
    }
}
