//! Collections: both sums of a cell given and set to 0, by the library and by the second program.

use crate::lent::{Lent, equal, same};
use crate::numbers::{card_numbers, card_of, sums_numbers};
use crate::refusals::{card_count, card_fault, row_fault, rows_fault};
use crate::steps::small_site;
use crate::tally::Tally;
use crate::waterbook::{CARD, NOT_THE_COUNT, OLD_ROW, ROW, SUMS, raw};
use crate::wild;
use second::made::dice::Dice;
use second::made::site::Site;
use second::numbers::{Card, row_in_range};
use second::sums::{MOST_SUMMED, Sums, collect};

/// What collections must come to, their cards and rows aside: given, by what the row held, or refused.
pub const COLLECTIONS: &[&str] = &[
    "0 nothing held",
    "0 runoff held",
    "0 drainage held",
    "0 both held",
    "0 a sum of 10^18 held",
    "0 beside a row out of range",
    "2 rows short",
    "2 rows long",
    "2 rows without sums",
    "3 cell",
    "255 sums",
];

/// What a collection is given, in numbers; the slices may have any length.
#[derive(Clone, Debug)]
pub struct Given {
    card: Vec<u32>,
    pub rows: Vec<u32>,
    cell: u32,
    pub sums: Vec<u64>,
}

impl Given {
    /// What a site gives for a cell, with sums that hold something else before the call.
    pub fn by(site: &Site, cell: u32) -> Given {
        let card = card_numbers(&site.card).to_vec();
        Given { card, rows: site.rows.clone(), cell, sums: vec![0x7777_7777_7777; SUMS] }
    }

    /// How a slice that has not its count of numbers is refused, if one has not.
    fn wrong_count(&self) -> Option<&'static str> {
        if self.card.len() != CARD {
            Some(card_count(self.card.len()))
        } else if self.sums.len() != SUMS {
            Some("255 sums")
        } else {
            None
        }
    }

    /// The second's answer to what is given: its number; rows and sums as they are after it.
    fn second(&mut self, tally: &mut Tally) -> u32 {
        if let Some(name) = self.wrong_count() {
            tally.meet("collections", name);
            return NOT_THE_COUNT;
        }
        let card = card_of(&self.card);
        let before = self.rows.clone();
        let (number, sums) = collect(&card, &mut self.rows, self.cell);
        self.sums.copy_from_slice(&sums_numbers(&sums));
        if number == 0 {
            given_up(&card, &before, self.cell, &sums, tally);
        } else {
            tally.meet("collections", refusal(number, &card, &before, self.cell));
        }
        number
    }
}

/// Note what an accepted collection gave.
fn given_up(card: &Card, rows: &[u32], cell: u32, sums: &Sums, tally: &mut Tally) {
    let held = match (sums.runoff, sums.drainage) {
        (0, 0) => "0 nothing held",
        (_, 0) => "0 runoff held",
        (0, _) => "0 drainage held",
        _ => "0 both held",
    };
    tally.meet("collections", held);
    if sums.runoff == MOST_SUMMED || sums.drainage == MOST_SUMMED {
        tally.meet("collections", "0 a sum of 10^18 held");
    }
    let mut others = rows.chunks(ROW).enumerate().filter(|(place, _)| *place != cell as usize);
    if others.any(|(_, row)| !row_in_range(row, card.delays)) {
        tally.meet("collections", "0 beside a row out of range");
    }
}

/// What a collection was refused for; the rows are as they were lent.
fn refusal(number: u32, card: &Card, rows: &[u32], cell: u32) -> &'static str {
    match number {
        1 => card_fault(card),
        2 => rows_fault(card, rows.len()),
        3 => "3 cell",
        _ => row_fault(&rows[ROW * cell as usize..][..ROW], card.delays),
    }
}

/// One collection by both over the same rows, held to each other; its number.
pub fn both(given: &mut Given, rows: &mut Lent<u32>, tally: &mut Tally) -> Result<u32, String> {
    let card = Lent::new(&given.card, 0xa5a5_a5a5);
    let mut sums = Lent::new(&given.sums, 0x3c3c_3c3c_3c3c_3c3c);
    let number = given.second(tally);
    let answered = raw::collect(card.held(), rows.slice(), given.cell, sums.slice());
    tally.collections += 1;
    tally.number("collect", number);
    equal("number", answered, number)?;
    same("sums", &sums, &given.sums)?;
    same("rows", rows, &given.rows)?;
    same("card", &card, &given.card)?;
    Ok(number)
}

/// Collections from rows of any kind, with slices of any length.
pub fn wild_collections(dice: &mut Dice, tally: &mut Tally, times: u64) -> Result<(), String> {
    let mut site = small_site(dice);
    for _ in 0..times {
        wild::fair_rows(dice, &mut site.rows, site.card.delays);
        let mut given = Given::by(&site, dice.place(site.card.cells as usize) as u32);
        given.sums.fill_with(|| wild::any_sum(dice));
        for _ in 0..dice.pick(&[0, 0, 1, 1, 1, 2, 3]) {
            wilder(dice, &mut given);
        }
        let (asked, mut rows) = (given.clone(), Lent::new(&given.rows, 0x5a5a_5a5a));
        both(&mut given, &mut rows, tally).map_err(|what| format!("collect\n{what}\n{asked:?}"))?;
    }
    Ok(())
}

/// One wild thing done to what a collection is given.
fn wilder(dice: &mut Dice, given: &mut Given) {
    if given.wrong_count().is_some() {
        return;
    }
    let (cells, delays) = (given.card[0], given.card[1]);
    let start = ROW.saturating_mul(given.cell as usize);
    match dice.below(12) {
        0 | 1 => wild::card(dice, &mut given.card),
        2..=5 if start + ROW <= given.rows.len() => {
            wild::row(dice, &mut given.rows[start..start + ROW], delays)
        }
        // Numbers of other cells must not matter.
        6 | 7 if !given.rows.is_empty() => {
            let place = dice.place(given.rows.len());
            given.rows[place] = wild::any(dice);
        }
        8 => given.cell = dice.pick(&[cells, cells.wrapping_add(1), 256, u32::MAX]),
        9 => given.rows.resize(wild::other_length(dice, given.rows.len(), ROW), 0),
        10 => given.rows.truncate(given.rows.len() / ROW * OLD_ROW),
        _ if dice.once_in(2) => given.card.resize(wild::other_length(dice, CARD, 1), 0),
        _ => given.sums.resize(wild::other_length(dice, SUMS, 1), 5),
    }
}
