//! The page's own cases, each refusal number, voids, shares, sums, moves, the ring engine, texts, books, made journals
//! and the outbox.

mod book;
mod edges;
mod heads;
mod link;
mod made;
mod moves;
mod outbox;
mod refusals;
mod ring;
mod ring_moves;
mod ring_refusals;
mod share_texts;
mod shares;
mod sheets;
mod sums;
mod texts;
mod void_texts;
mod voids;

use crate::made::dice::Dice;
use crate::made::sums::made_sums;
use crate::numbers::{slot_limit, Card, Reading, RING_ROW, ROW};

/// A card of so many cells with these delay depths.
fn card(cells: u32, depths: &[u32]) -> Card {
    let mut card = Card { cells, delays: depths.len() as u32, ..Card::BLANK };
    card.depths[..depths.len()].copy_from_slice(depths);
    card
}

/// The soil numbers of the page's example.
const PLOT: [i64; 5] = [10_000_000, 1_500_000, 200, 100_000, 80];

/// The first reading of the page's example.
fn example() -> Reading {
    Reading {
        rain: 50_800,
        septic: 1000,
        etmin: 2000,
        pet: 5000,
        amc: 2,
        head: 0x410c_0000,
        ..Reading::default()
    }
}

/// A card of so many cells and delays, their depths a metre apart.
fn delayed(cells: u32, delays: u32) -> Card {
    card(cells, &(1..=delays).map(|k| 1_000_000 * k).collect::<Vec<u32>>())
}

/// The starts that a ring of so many delays may have.
fn starts(delays: u32) -> std::ops::Range<u32> {
    0..delays.max(1)
}

/// The ring row of a plain one, with this start.
fn turned(row: &[u32], start: u32, delays: u32) -> [u32; RING_ROW] {
    let mut ring = [0; RING_ROW];
    ring[..ROW].copy_from_slice(row);
    for k in 1..=delays {
        ring[2 + ((start + k - 1) % delays) as usize] = row[1 + k as usize];
    }
    ring[36] = start;
    ring
}

/// A row in range: each slot full, empty or in between, and sums.
fn some_row(dice: &mut Dice, delays: u32) -> [u32; ROW] {
    let mut row = [0; ROW];
    row[0] = dice.below(4) as u32;
    row[1] = dice.pick(&[0, 1, 7, 999_998, 999_999]);
    for k in 1..=delays {
        let some = dice.below(u64::from(slot_limit(k, delays)) + 1) as u32;
        row[1 + k as usize] = dice.pick(&[0, slot_limit(k, delays), some, some % 5000]);
    }
    made_sums(dice).write(&mut row);
    row
}
