//! Made journals: from a seed and a journal's place, the same bytes every time.

pub mod damage;
pub mod dice;
pub mod entries;
pub mod measure;
pub mod outboxes;
pub mod readings;
pub mod site;
pub mod sums;
pub mod wet;

use dice::Dice;
use site::Site;

/// The kinds of journals made.
#[derive(Clone, Copy, Debug, PartialEq, Eq)]
pub enum Kind {
    /// A site in order; its readings and voids may still hold faults.
    Fair,
    /// A wet site over a deep table; its queue fills up.
    Wet,
    /// A card that clearing refuses.
    FoulCard,
    /// Soil numbers out of range in some cells.
    FoulSoil,
    /// A fair journal whose bytes were damaged.
    Damaged,
    /// A journal near the longest length, or beyond it.
    Measured,
}

/// The dice of one journal, given the seed and the journal's place.
fn dice_for(seed: u64, place: u64) -> Dice {
    let mut stirred = Dice::new(seed);
    Dice::new(stirred.roll().wrapping_add(place.wrapping_mul(0xd134_2543_de82_ef95)))
}

/// The kind that the dice give a journal.
fn kind(dice: &mut Dice) -> Kind {
    match dice.below(100) {
        0..=43 => Kind::Fair,
        44..=49 => Kind::Wet,
        50..=54 => Kind::FoulCard,
        55..=64 => Kind::FoulSoil,
        65..=95 => Kind::Damaged,
        _ => Kind::Measured,
    }
}

/// The journal at a place of a seed's row of journals, with its kind.
pub fn journal_of_kind(seed: u64, place: u64) -> (Kind, Vec<u8>) {
    let mut dice = dice_for(seed, place);
    let kind = kind(&mut dice);
    let bytes = match kind {
        Kind::Fair => fair(&mut dice),
        Kind::Wet => wet::wet(&mut dice),
        Kind::FoulCard => foul_card(&mut dice),
        Kind::FoulSoil => foul_soil(&mut dice),
        Kind::Damaged => damage::damaged(&mut dice),
        Kind::Measured => measure::measured(&mut dice),
    };
    (kind, bytes)
}

/// The journal at a place of a seed's row of journals.
pub fn journal(seed: u64, place: u64) -> Vec<u8> {
    journal_of_kind(seed, place).1
}

/// How many readings and voids a journal gets; few mostly, many at times.
fn how_many(dice: &mut Dice) -> u64 {
    match dice.below(20) {
        0 => dice.below(3),
        1 => 100 + dice.below(250),
        2..=8 => 20 + dice.below(60),
        _ => 1 + dice.below(20),
    }
}

/// A site in order and its readings and voids.
fn fair(dice: &mut Dice) -> Vec<u8> {
    let mut site = Site::made(dice);
    let count = how_many(dice);
    entries::journal(&mut site, dice, count)
}

/// A site whose card is out of range or not rising.
fn foul_card(dice: &mut Dice) -> Vec<u8> {
    let mut site = Site::made(dice);
    site.foul_card(dice);
    let count = dice.below(4);
    entries::journal(&mut site, dice, count)
}

/// A site with some soil numbers out of range.
fn foul_soil(dice: &mut Dice) -> Vec<u8> {
    let mut site = Site::made(dice);
    for _ in 0..1 + dice.below(3) {
        site.foul_soil(dice);
    }
    let count = how_many(dice);
    entries::journal(&mut site, dice, count)
}
