//! Wet sites over deep tables: queues that fill up to their limits and are drawn on.

use super::dice::Dice;
use super::entries::entry_bytes;
use super::readings::{card_bytes, fault};
use super::site::{made_share, Site};
use crate::head::DRY;
use crate::numbers::{Card, Entry, Reading, MOST, MOST_RAIN, ROW};
use crate::step::enter;

/// A cell with its top at 0 and delay depths a metre apart, so that heads hit them exactly.
pub fn wet_site(dice: &mut Dice) -> Site {
    let some = dice.within(1, 30);
    let delays = dice.pick(&[1, 2, 3, 30, 30, some]) as u32;
    let mut card = Card { cells: 1, delays, share: made_share(dice), ..Card::BLANK };
    for k in 1..=delays {
        card.depths[k as usize - 1] = 1_000_000 * k;
    }
    let cn = dice.pick(&[1, 1, 2, 40, 100]);
    let soil = vec![0, dice.pick(&[1, 5_000_000, 100_000_000]), 1000, 1_000_000, cn];
    let rows = vec![0; ROW];
    Site { card, soil, rows, usual: vec![0] }
}

/// The head so many whole metres below 0.
pub fn metres_down(metres: u32) -> u32 {
    (-(metres as f32)).to_bits()
}

/// A reading at a delay: a downpour, a drizzle, or a dry day with thirsty plants.
pub fn wet_reading(site: &Site, dice: &mut Dice, delay: u32, weather: u64) -> Reading {
    let mut reading = Reading {
        life: site.rows[0],
        count: site.rows[1],
        amc: dice.within(1, 3) as u32,
        head: metres_down(delay),
        ..Reading::default()
    };
    match dice.below(weather) {
        0 => {
            reading.pet = dice.pick(&[1_000_000, 300_000, 5_000]);
            reading.etmin = reading.pet - dice.below(3) as u32;
        }
        1 | 2 => reading.rain = dice.below(4_000) as u32,
        _ => (reading.rain, reading.irrig) = (MOST_RAIN, MOST),
    }
    reading
}

/// A journal in which the delay mostly falls by one each step, so that one slot gathers all.
pub fn wet(dice: &mut Dice) -> Vec<u8> {
    let mut site = wet_site(dice);
    let mut bytes = card_bytes(&site);
    let mut delay = site.card.delays;
    let faults = dice.once_in(2);
    // Low for changing weather, high for weeks of rain.
    let weather = dice.pick(&[4, 12, 1000]);
    let rarity = dice.pick(&[6, 20, 1000]);
    for _ in 0..20 + dice.below(180) {
        let mut reading = wet_reading(&site, dice, delay, weather);
        match dice.below(30) {
            0 => reading.head = DRY,
            1 if faults => fault(&site, dice, &mut reading),
            _ => {}
        }
        let void = dice.once_in(rarity);
        let entry = if void { Entry::Void(reading.turn()) } else { Entry::Reading(reading) };
        enter(&site.card, &site.soil, &mut site.rows, &entry);
        bytes.extend(entry_bytes(&entry));
        let anywhere = dice.below(u64::from(site.card.delays) + 1) as u32;
        delay = match (delay, dice.below(25)) {
            (_, 0) => anywhere,
            (0 | 1, _) => site.card.delays,
            _ => delay - 1,
        };
    }
    bytes
}
