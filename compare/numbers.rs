//! The second program's records as the library's numbers, and back.

use crate::waterbook::{AMOUNTS, CARD, NOTICE, READING, SHARE_AT, SHEET, SUMS};
use second::numbers::{Amounts, Card, Reading, Void};
use second::sheet::Sheet;
use second::sums::Sums;

/// A card as the library's numbers.
pub fn card_numbers(card: &Card) -> [u32; CARD] {
    let mut numbers = [0; CARD];
    (numbers[0], numbers[1], numbers[SHARE_AT]) = (card.cells, card.delays, card.share);
    numbers[2..SHARE_AT].copy_from_slice(&card.depths);
    numbers
}

/// The card of the library's numbers.
pub fn card_of(numbers: &[u32]) -> Card {
    let (cells, delays, share) = (numbers[0], numbers[1], numbers[SHARE_AT]);
    let mut card = Card { cells, delays, share, ..Card::ZEROS };
    card.depths.copy_from_slice(&numbers[2..SHARE_AT]);
    card
}

/// A reading as ten numbers.
pub fn reading_numbers(r: &Reading) -> [u32; READING] {
    [r.cell, r.life, r.count, r.rain, r.irrig, r.septic, r.etmin, r.pet, r.amc, r.head]
}

/// The reading of ten numbers.
pub fn reading_of(n: &[u32]) -> Reading {
    let (cell, life, count, rain, irrig) = (n[0], n[1], n[2], n[3], n[4]);
    let (septic, etmin, pet, amc, head) = (n[5], n[6], n[7], n[8], n[9]);
    Reading { cell, life, count, rain, irrig, septic, etmin, pet, amc, head }
}

/// A void as three numbers.
pub fn void_numbers(v: &Void) -> [u32; NOTICE] {
    [v.cell, v.life, v.count]
}

/// The void of three numbers.
pub fn void_of(n: &[u32]) -> Void {
    Void { cell: n[0], life: n[1], count: n[2] }
}

/// Amounts as ten numbers.
pub fn amounts_numbers(amounts: &Amounts) -> [i64; AMOUNTS] {
    let mut numbers = [amounts.left; AMOUNTS];
    numbers[..9].copy_from_slice(&amounts.nine());
    numbers
}

/// The amounts of ten numbers.
pub fn amounts_of(n: &[i64]) -> Amounts {
    let (inflow, runoff, etvad, etstor, etsat) = (n[0], n[1], n[2], n[3], n[4]);
    let (drain, release, stored, recharge, left) = (n[5], n[6], n[7], n[8], n[9]);
    Amounts { inflow, runoff, etvad, etstor, etsat, drain, release, stored, recharge, left }
}

/// Sums as two numbers.
pub fn sums_numbers(sums: &Sums) -> [u64; SUMS] {
    [sums.runoff, sums.drainage]
}

/// A sheet as ten numbers.
pub fn sheet_numbers(sheet: &Sheet) -> [i64; SHEET] {
    let mut numbers = [sheet.steps as i64; SHEET];
    numbers[1..].copy_from_slice(&sheet.sums);
    numbers
}

/// The sheet of ten numbers; negative steps become more than a sheet can have, and are refused as those are.
pub fn sheet_of(numbers: &[i64]) -> Sheet {
    let mut sheet = Sheet { steps: numbers[0] as u64, sums: [0; 9] };
    sheet.sums.copy_from_slice(&numbers[1..]);
    sheet
}
