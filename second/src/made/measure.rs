//! Measured journals: well-formed lines that come to a wanted length.

use super::dice::Dice;
use super::entries::{entry_bytes, made_entry, void_rarity};
use super::readings::{card_bytes, reading_bytes};
use super::site::Site;
use crate::journal::LONGEST;
use crate::numbers::Reading;

/// The length of the shortest reading line.
fn shortest() -> usize {
    reading_bytes(&Reading::default()).len()
}

/// A reading line of a wanted length, from the shortest to 81 bytes more.
fn line_of(length: usize) -> Vec<u8> {
    let mut more = length - shortest();
    let mut longer = || {
        let digits = more.min(9);
        more -= digits;
        if digits == 0 {
            0
        } else {
            10u32.pow(digits as u32)
        }
    };
    let reading = Reading {
        rain: longer(),
        irrig: longer(),
        septic: longer(),
        etmin: longer(),
        pet: longer(),
        amc: longer(),
        life: longer(),
        count: longer(),
        cell: longer(),
        head: 0,
    };
    reading_bytes(&reading)
}

/// A journal of exactly so many bytes, with LF at its end.
pub fn exactly(dice: &mut Dice, length: usize) -> Vec<u8> {
    let mut site = Site::made(dice);
    while site.card.cells > 8 {
        site = Site::made(dice);
    }
    let mut bytes = card_bytes(&site);
    let rarity = void_rarity(dice);
    // Leave room for some short lines, so that the rest can always be filled.
    while length - bytes.len() > 4 * shortest() {
        bytes.extend(entry_bytes(&made_entry(&mut site, dice, rarity)));
    }
    while bytes.len() < length {
        let rest = length - bytes.len();
        bytes.extend(line_of(if rest >= 2 * shortest() { shortest() } else { rest }));
    }
    bytes
}

/// A journal near the longest length or beyond it.
pub fn measured(dice: &mut Dice) -> Vec<u8> {
    let longer = LONGEST + 2 + dice.place(5000);
    let length = dice.pick(&[LONGEST - 1, LONGEST, LONGEST, LONGEST + 1, LONGEST + 1, longer]);
    let mut bytes = exactly(dice, length);
    match dice.below(8) {
        // The last line loses its LF but the length stays.
        0 => bytes[length - 1] = b' ',
        // A malformed line stands in the midst of a long journal.
        1 => bytes[length / 2] = b'\n',
        // No line at all.
        2 => bytes.fill(b'0'),
        // Empty lines only.
        3 => bytes.fill(b'\n'),
        _ => {}
    }
    bytes
}
