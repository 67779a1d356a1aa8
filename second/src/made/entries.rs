//! Made entries: readings, and voids among them that claim such turns as readings do.

use super::dice::Dice;
use super::readings::{card_bytes, next_reading, reading_bytes};
use super::site::Site;
use crate::journal::LONGEST;
use crate::numbers::{Entry, Void};
use crate::step::enter;
use crate::text::write_void;

/// The text of a void.
pub fn void_bytes(void: &Void) -> Vec<u8> {
    let mut buffer = vec![0; 64];
    let (number, length) = write_void(void, &mut buffer);
    assert_eq!(number, 0, "a void fits its buffer");
    buffer.truncate(length);
    buffer
}

/// The text of an entry.
pub fn entry_bytes(entry: &Entry) -> Vec<u8> {
    match entry {
        Entry::Reading(reading) => reading_bytes(reading),
        Entry::Void(void) => void_bytes(void),
    }
}

/// How rare voids are in a journal, one in so many entries; at times there is nothing else.
pub fn void_rarity(dice: &mut Dice) -> u64 {
    dice.pick(&[4, 12, 12, 12, 12, 40, 40, 1])
}

/// One entry, in its turn mostly; the rows stay as they are.
pub fn next_entry(site: &Site, dice: &mut Dice, rarity: u64) -> Entry {
    let reading = next_reading(site, dice);
    if dice.once_in(rarity) {
        Entry::Void(reading.turn())
    } else {
        Entry::Reading(reading)
    }
}

/// One entry, taken by the site's rows if it is accepted.
pub fn made_entry(site: &mut Site, dice: &mut Dice, rarity: u64) -> Entry {
    let entry = next_entry(site, dice, rarity);
    enter(&site.card, &site.soil, &mut site.rows, &entry);
    entry
}

/// A journal of so many entries, never longer than the longest.
pub fn journal(site: &mut Site, dice: &mut Dice, count: u64) -> Vec<u8> {
    let mut bytes = card_bytes(site);
    let rarity = void_rarity(dice);
    for _ in 0..count {
        let line = entry_bytes(&made_entry(site, dice, rarity));
        if bytes.len() + line.len() > LONGEST {
            break;
        }
        bytes.extend(line);
    }
    bytes
}
