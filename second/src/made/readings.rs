//! Made readings: in turn mostly, with faults now and then.

use super::dice::Dice;
use super::site::{wanted_depth, Site, HEADS};
use crate::head::{depth, DRY, INACTIVE};
use crate::journal::LONGEST;
use crate::numbers::{Reading, MOST, MOST_RAIN, ROW, SOIL};
use crate::rules::curve_number;
use crate::text::{write_card, write_reading};

/// The text of a site's card.
pub fn card_bytes(site: &Site) -> Vec<u8> {
    let mut buffer = vec![0; LONGEST];
    let (number, length) = write_card(&site.card, &site.soil, &mut buffer);
    assert_eq!(number, 0, "a made card can be written");
    buffer.truncate(length);
    buffer
}

/// The text of a reading.
pub fn reading_bytes(reading: &Reading) -> Vec<u8> {
    let mut buffer = vec![0; 256];
    let (number, length) = write_reading(reading, &mut buffer);
    assert_eq!(number, 0, "a reading fits its buffer");
    buffer.truncate(length);
    buffer
}

/// One reading, in its turn mostly; the rows stay as they are.
pub fn next_reading(site: &Site, dice: &mut Dice) -> Reading {
    let mut reading = good_reading(site, dice);
    let faults = match dice.below(40) {
        0 => 3,
        1 | 2 => 2,
        3..=8 => 1,
        _ => 0,
    };
    for _ in 0..faults {
        fault(site, dice, &mut reading);
    }
    reading
}

/// A reading that a site in order accepts.
fn good_reading(site: &Site, dice: &mut Dice) -> Reading {
    let cell = dice.place(site.card.cells as usize);
    let (life, count) = (site.rows[ROW * cell], site.rows[ROW * cell + 1]);
    let pet = water(dice);
    let etmin = if dice.once_in(4) { pet } else { dice.below(u64::from(pet) + 1) as u32 };
    let mut reading = Reading { cell: cell as u32, life, count, etmin, pet, ..Reading::default() };
    reading.amc = dice.within(1, 3) as u32;
    reading.head = good_head(site, dice, cell);
    if !dice.once_in(4) {
        reading.rain = rain(dice);
        reading.irrig = if dice.once_in(2) { 0 } else { water(dice) };
    }
    reading.septic = if dice.once_in(2) { 0 } else { water(dice) };
    if dice.once_in(4) {
        fill_pores(site, dice, &mut reading);
    }
    if dice.once_in(8) {
        wet_first(site, dice, &mut reading);
    }
    if dice.once_in(15) {
        swap_battery(dice, &mut reading);
    }
    reading
}

/// An amount of water within a reading's range, often at an edge.
fn water(dice: &mut Dice) -> u32 {
    match dice.below(8) {
        0 => dice.pick(&[0, 1, 2, 999_999, 1_000_000]),
        1 => dice.pick(&[12_952, 12_953, 3_427, 3_428, 50_800, 5_000, 2_000, 1_000_000]),
        2 | 3 => dice.below(1_000_001) as u32,
        4 | 5 => dice.below(100_001) as u32,
        _ => dice.below(5_001) as u32,
    }
}

/// An amount of rain that is believed, often at an edge.
fn rain(dice: &mut Dice) -> u32 {
    match dice.below(8) {
        0 => dice.pick(&[0, 1, MOST_RAIN - 1, MOST_RAIN]),
        _ => water(dice) % (MOST_RAIN + 1),
    }
}

/// A dry head or a level: the usual one, one beside it, or one at a wanted depth.
fn good_head(site: &Site, dice: &mut Dice, cell: usize) -> u32 {
    let usual = site.usual[cell];
    let (top, etdepth) = (site.soil[SOIL * cell], site.soil[SOIL * cell + 1]);
    let bits = match dice.below(10) {
        0..=3 => usual,
        4 => usual.wrapping_add(dice.below(5) as u32).wrapping_sub(2),
        5 => DRY,
        6 => dice.pick(&HEADS[..12]),
        _ => head_at(top.saturating_sub(wanted_depth(dice, &site.card, etdepth))),
    };
    if depth(0, bits).is_some() {
        bits
    } else {
        usual
    }
}

/// The float nearest to a level.
fn head_at(level: i64) -> u32 {
    ((level as f64 / 1_000_000.0) as f32).to_bits()
}

/// Set rain and irrigation so that they just fill, or just don't fill, the pores above the table.
fn fill_pores(site: &Site, dice: &mut Dice, reading: &mut Reading) {
    let plot = SOIL * reading.cell as usize;
    let (top, vadpor) = (site.soil[plot], site.soil[plot + 2]);
    let Some(d) = depth(top.clamp(-10_000_000_000, 10_000_000_000), reading.head) else {
        return;
    };
    let room = d.saturating_mul(vadpor) / 1000 + dice.within(-1, 2);
    let (most_rain, most_irrig) = (i64::from(MOST_RAIN), i64::from(MOST));
    if (0..=most_rain + most_irrig).contains(&room) {
        let least = (room - most_rain).max(0);
        let some = dice.within(least, room.min(most_irrig));
        let irrig = dice.pick(&[least, some]);
        reading.irrig = irrig as u32;
        reading.rain = (room - irrig) as u32;
    }
}

/// Set rain about where the first wetting ends and runoff starts.
fn wet_first(site: &Site, dice: &mut Dice, reading: &mut Reading) {
    let cn = site.soil[SOIL * reading.cell as usize + 4];
    if !(1..=100).contains(&cn) {
        return;
    }
    let c = curve_number(cn, reading.amc);
    let first = 2_540 * i64::from(site.card.share) * (100 - c) / c;
    let more = dice.below(600) as i64;
    let rain = first + dice.pick(&[-1, 0, 1, 252, 253, 254, more, more]);
    if (0..=i64::from(MOST_RAIN)).contains(&rain) {
        reading.rain = rain as u32;
    }
}

/// A new battery: a higher life, and the count from 0.
fn swap_battery(dice: &mut Dice, reading: &mut Reading) {
    let higher = [reading.life + 1, reading.life + 2, reading.life + 700, 65_535];
    reading.life = dice.pick(&higher);
    reading.count = 0;
}

/// Put one fault into a reading.
pub fn fault(site: &Site, dice: &mut Dice, reading: &mut Reading) {
    let cells = site.card.cells;
    match dice.below(13) {
        0 => reading.cell = dice.pick(&[cells, cells + 1, 256, u32::MAX]),
        1 => reading.count = reading.count.saturating_sub(1),
        2 => reading.life = reading.life.saturating_sub(1),
        3 => reading.count = reading.count.saturating_add(1 + dice.below(3) as u32),
        4 => reading.count = dice.pick(&[0, 1, 999_999, 1_000_000, u32::MAX]),
        5 => reading.life = dice.pick(&[0, 1, 65_535, 65_536, u32::MAX]),
        6 => reading.amc = dice.pick(&[0, 1, 3, 4, u32::MAX]),
        7 => reading.etmin = reading.pet.saturating_add(1),
        8 => *a_water(dice, reading) = dice.pick(&[1_000_001, u32::MAX]),
        9 => reading.head = dice.pick(&HEADS[12..]),
        10 => reading.head = INACTIVE,
        11 => reading.rain = dice.pick(&[MOST_RAIN + 1, 940_000, MOST - 1, MOST]),
        _ => reading.head = dice.roll() as u32,
    }
}

/// One of the five water fields of a reading.
fn a_water<'a>(dice: &mut Dice, reading: &'a mut Reading) -> &'a mut u32 {
    match dice.below(5) {
        0 => &mut reading.rain,
        1 => &mut reading.irrig,
        2 => &mut reading.septic,
        3 => &mut reading.etmin,
        _ => &mut reading.pet,
    }
}
