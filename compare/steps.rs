//! Steps, voids and clearings: the proved code through the library against the second program.

use crate::given::{Call, Given, Slices, both, take};
use crate::lent::{Lent, equal, same};
use crate::numbers::{card_numbers, card_of, reading_numbers};
use crate::tally::Tally;
use crate::waterbook::{AMOUNTS, CARD, NOT_THE_COUNT, OLD_ROW, ROW, SHARE_AT, SOIL, raw};
use crate::{refusals, wild};
use second::head::DRY;
use second::made::dice::Dice;
use second::made::readings::next_reading;
use second::made::site::Site;
use second::made::wet::metres_down;
use second::numbers::{Card, Entry, MOST_RAIN, Reading, USUAL_SHARE};

/// What the sweep over every curve number must meet.
pub const CURVES: &[&str] = &[
    "dry, seen in the runoff",
    "dry, below 8 and so without runoff",
    "normal, seen in the runoff",
    "normal, below 8 and so without runoff",
    "wet, seen in the runoff",
    "wet, below 8 and so without runoff",
];

/// A site with a cell for every curve number, a share and no delays.
pub fn site_of_curves(share: u32) -> Site {
    let card = Card { cells: 100, share, ..Card::BLANK };
    let soil = (1..=100).flat_map(|cn| [0, 1, 1, 0, cn]).collect();
    Site { card, soil, rows: vec![0; 100 * ROW], usual: Vec::new() }
}

/// Every curve number on dry, normal and wet ground: at the usual share, with the most rain and a dry head.
pub fn curves(tally: &mut Tally) -> Result<(), String> {
    let mut given = Given::by(&site_of_curves(USUAL_SHARE));
    let mut slices = Slices::lend(&given);
    for amc in 1..=3 {
        for cell in 0..100 {
            let (count, cn) = (amc - 1, cell + 1);
            let storm = Reading { rain: MOST_RAIN, head: DRY, ..Reading::default() };
            let reading = Reading { cell, count, amc, ..storm };
            take(&mut given, &mut slices, &Entry::Reading(reading));
            let at = |what| format!("step, most rain at cn {cn}, amc {amc}\n{what}");
            let number = both(&mut given, &mut slices, tally).map_err(at)?;
            if number != 0 {
                return Err(at(format!("refused with {number}")));
            }
            let unseen = usize::from(given.amounts[1] == 0);
            tally.meet("every curve number", CURVES[2 * count as usize + unseen]);
        }
    }
    Ok(())
}

/// What the sweep over every delay must meet.
pub const DELAYS: &[&str] = &["at its depth", "1 µm above it", "below the last depth"];

/// A site of two cells with so many delay depths a metre apart, the second cell's top a µm below the first's.
pub fn site_of_delays(delays: u32) -> Site {
    let mut card = Card { cells: 2, delays, ..Card::BLANK };
    for k in 1..=delays {
        card.depths[k as usize - 1] = 1_000_000 * k;
    }
    let soil = [0, -1].into_iter().flat_map(|top| [top, 1, 1, 0, 1]).collect();
    Site { card, soil, rows: vec![0; 2 * ROW], usual: Vec::new() }
}

/// Every delay of every number of delays: rain that sinks in with the water table at a depth and 1 µm above it.
pub fn delays(tally: &mut Tally) -> Result<(), String> {
    for delays in 1..=30 {
        let site = site_of_delays(delays);
        for (metres, cell) in (1..=delays + 1).flat_map(|metres| [(metres, 0), (metres, 1)]) {
            let (mut given, head) = (Given::by(&site), metres_down(metres));
            let mut slices = Slices::lend(&given);
            let reading = Reading { cell, rain: 1000, amc: 2, head, ..Reading::default() };
            take(&mut given, &mut slices, &Entry::Reading(reading));
            let at =
                |what| format!("step, {metres} m down in cell {cell}, {delays} delays\n{what}");
            let number = both(&mut given, &mut slices, tally).map_err(at)?;
            if number != 0 {
                return Err(at(format!("refused with {number}")));
            }
            let slots = &given.rows[ROW * cell as usize + 2..][..30];
            let slot = slots.iter().position(|&water| water > 0).map_or(0, |place| place + 1);
            if slot != (metres - cell).min(delays) as usize {
                return Err(at(format!("the rain is in slot {slot}")));
            }
            let beside = if metres > delays { 2 } else { cell as usize };
            tally.meet("every delay", DELAYS[beside]);
        }
    }
    Ok(())
}

/// A site of few cells.
pub fn small_site(dice: &mut Dice) -> Site {
    loop {
        let site = Site::made(dice);
        if site.card.cells <= 4 || dice.once_in(200) {
            return site;
        }
    }
}

/// Steps or voids with wild numbers and slices of any length.
pub fn wild_steps(
    dice: &mut Dice,
    tally: &mut Tally,
    call: Call,
    times: u64,
) -> Result<(), String> {
    let mut site = small_site(dice);
    for _ in 0..times {
        let cell = dice.place(site.card.cells as usize);
        wild::fair_row(dice, &mut site.rows[ROW * cell..ROW * (cell + 1)], site.card.delays);
        let mut given = Given::by(&site);
        // A reading's first numbers are its turn, and all that a void has.
        given.call = call;
        given.entry = reading_numbers(&next_reading(&site, dice))[..call.width()].to_vec();
        given.amounts.fill_with(|| wild::any_signed(dice));
        for _ in 0..dice.pick(&[0, 1, 1, 1, 2, 3]) {
            wilder(dice, &mut given);
        }
        let asked = given.clone();
        let mut slices = Slices::lend(&given);
        both(&mut given, &mut slices, tally)
            .map_err(|what| format!("{}\n{what}\n{asked:?}", call.name()))?;
    }
    Ok(())
}

/// One wild thing done to what a call is given.
fn wilder(dice: &mut Dice, given: &mut Given) {
    if given.wrong_count().is_some() {
        return;
    }
    let cell = given.entry[0] as usize;
    let (plot, start) = (SOIL.saturating_mul(cell), ROW.saturating_mul(cell));
    let delays = given.card[1];
    match dice.below(16) {
        0 | 1 => wild::card(dice, &mut given.card),
        2..=4 if plot + SOIL <= given.soil.len() => {
            wild::soil(dice, &mut given.soil[plot..plot + SOIL])
        }
        5..=8 if start + ROW <= given.rows.len() => {
            wild::row(dice, &mut given.rows[start..start + ROW], delays)
        }
        9 => wrong_length(dice, given),
        // Numbers of other cells must not matter.
        10 if !given.rows.is_empty() => {
            let place = dice.place(given.rows.len());
            given.rows[place] = wild::any(dice);
        }
        11 if !given.soil.is_empty() => {
            let place = dice.place(given.soil.len());
            given.soil[place] = wild::any_signed(dice);
        }
        _ if given.call == Call::Void => wild::turn(dice, &mut given.entry),
        _ => {
            let cn = given.soil.get(plot.saturating_add(4)).copied().unwrap_or(0);
            wild::reading(dice, &mut given.entry, cn, given.card[SHARE_AT]);
        }
    }
}

/// Give one slice another length.
fn wrong_length(dice: &mut Dice, given: &mut Given) {
    let other = |dice: &mut Dice, right, stride| wild::other_length(dice, right, stride);
    match dice.below(7) {
        0 | 1 => given.soil.resize(other(dice, given.soil.len(), SOIL), 1),
        2 => given.rows.resize(other(dice, given.rows.len(), ROW), 0),
        3 => given.rows.truncate(given.rows.len() / ROW * OLD_ROW),
        4 => given.card.resize(other(dice, CARD, 1), 0),
        5 => given.entry.resize(other(dice, given.call.width(), 1), 0),
        _ => given.amounts.resize(other(dice, AMOUNTS, 1), 5),
    }
}

/// Clearings of sites in order and not.
pub fn clearings(dice: &mut Dice, tally: &mut Tally, times: u64) -> Result<(), String> {
    for _ in 0..times {
        let site = small_site(dice);
        let mut card = card_numbers(&site.card).to_vec();
        let mut rows: Vec<u32> = site.rows.iter().map(|_| wild::any(dice)).collect();
        if dice.once_in(2) {
            wild::card(dice, &mut card);
        }
        match dice.below(8) {
            0 => card.resize(wild::other_length(dice, CARD, 1), 0),
            1 | 2 => rows.resize(wild::other_length(dice, rows.len(), ROW), 7),
            3 => rows.truncate(rows.len() / ROW * OLD_ROW),
            _ => {}
        }
        clearing(&card, rows, tally).map_err(|what| format!("clear\n{what}\n{card:?}"))?;
    }
    Ok(())
}

/// One clearing by both; its number.
pub fn clearing(card: &[u32], mut rows: Vec<u32>, tally: &mut Tally) -> Result<u32, String> {
    let (lent_card, mut lent_rows) = (Lent::new(card, 0xa5a5_a5a5), Lent::new(&rows, 0x5a5a_5a5a));
    let (number, name) = match card.len() {
        CARD => {
            let number = second::step::clear(&card_of(card), &mut rows);
            (number, refusals::clearing(number, &card_of(card), rows.len()))
        }
        other => (NOT_THE_COUNT, refusals::card_count(other)),
    };
    let answered = raw::clear(lent_card.held(), lent_rows.slice());
    tally.number("clear", number);
    tally.meet("clearings", name);
    equal("number", answered, number)?;
    same("card", &lent_card, card)?;
    same("rows", &lent_rows, &rows)?;
    Ok(number)
}
