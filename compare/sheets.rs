//! Sheets: adding answers to them, by the library and by the second program.

use crate::lent::{Lent, equal, same};
use crate::numbers::{amounts_of, sheet_numbers, sheet_of};
use crate::tally::Tally;
use crate::waterbook::{AMOUNTS, NOT_THE_COUNT, SHEET, raw};
use crate::wild;
use second::made::dice::Dice;

/// What sheets must be refused for.
pub const REFUSALS: &[&str] = &[
    "added",
    "11 answer refused",
    "11 steps negative",
    "11 sheet full",
    "11 amount negative",
    "11 amount too large",
    "11 recharge too low",
    "11 sum negative",
    "11 sum too large",
    "11 sum of recharge too low",
    "255 sheet",
    "255 amounts",
];

/// The same sheet on both sides.
pub struct Pair {
    library: Lent<i64>,
    second: Vec<i64>,
}

impl Pair {
    /// A sheet of these numbers.
    fn of(numbers: &[i64]) -> Pair {
        Pair { library: Lent::new(numbers, -55), second: numbers.to_vec() }
    }

    /// A sheet without steps.
    pub fn empty() -> Pair {
        Pair::of(&[0; SHEET])
    }

    /// Add an answer on both sides.
    pub fn add(&mut self, number: u32, amounts: &[i64], tally: &mut Tally) -> Result<(), String> {
        let before = self.second.clone();
        let wanted = self.second_add(number, amounts);
        let lent = Lent::new(amounts, -44);
        let answered = raw::add(self.library.slice(), number, lent.held());
        tally.number("add", wanted);
        tally.meet("sheets", reason(wanted, number, &before, amounts));
        equal("number", answered, wanted)
            .and_then(|()| same("amounts", &lent, amounts))
            .and_then(|()| same("sheet", &self.library, &self.second))
            .map_err(|what| {
                format!("add\n{what}\nsheet {before:?} number {number} amounts {amounts:?}")
            })
    }

    /// Add on the second's side: its number.
    fn second_add(&mut self, number: u32, amounts: &[i64]) -> u32 {
        if self.second.len() != SHEET || amounts.len() != AMOUNTS {
            return NOT_THE_COUNT;
        }
        let (sheet, wanted) = sheet_of(&self.second).add(number, &amounts_of(amounts));
        self.second = sheet_numbers(&sheet).to_vec();
        wanted
    }
}

/// Why a sheet gave its number.
fn reason(wanted: u32, number: u32, sheet: &[i64], amounts: &[i64]) -> &'static str {
    let most = 30_000_000_000;
    let but = |numbers: &[i64], recharge: usize| {
        numbers.iter().enumerate().any(|(place, n)| place != recharge && *n < 0)
    };
    match wanted {
        0 => "added",
        NOT_THE_COUNT if sheet.len() != SHEET => "255 sheet",
        NOT_THE_COUNT => "255 amounts",
        _ if number != 0 => "11 answer refused",
        _ if sheet[0] < 0 => "11 steps negative",
        _ if sheet[0] >= 100_000_000 => "11 sheet full",
        _ if but(amounts, 8) => "11 amount negative",
        _ if amounts[8] < -most => "11 recharge too low",
        _ if amounts.iter().any(|n| *n > most) => "11 amount too large",
        _ if but(&sheet[1..], 8) => "11 sum negative",
        _ if sheet[9] < -most * sheet[0] => "11 sum of recharge too low",
        _ => "11 sum too large",
    }
}

/// A sheet that can be added to.
pub fn fair_sheet(dice: &mut Dice) -> Vec<i64> {
    let some = dice.within(0, 99_999_999);
    let steps = dice.pick(&[0, 1, 2, 1000, 99_999_998, 99_999_999, some, some]);
    let limit = 30_000_000_000 * steps;
    let mut sheet = vec![steps];
    for place in 1..SHEET {
        let low = if place == 9 { -limit } else { 0 };
        let some = dice.within(low, limit);
        sheet.push(dice.pick(&[low, limit, 0, some, some, some]));
    }
    sheet
}

/// Amounts that can be added.
pub fn fair_amounts(dice: &mut Dice) -> Vec<i64> {
    let limit = 30_000_000_000;
    let mut amounts = Vec::new();
    for place in 0..AMOUNTS {
        let low = if place == 8 { -limit } else { 0 };
        let some = dice.within(low, limit);
        amounts.push(dice.pick(&[low, limit, 0, some, some, some]));
    }
    amounts
}

/// One wild thing done to a sheet or to amounts.
fn wilder(dice: &mut Dice, sheet: &mut [i64], amounts: &mut [i64]) {
    let limit = 30_000_000_000i64.saturating_mul(sheet[0]);
    let place = dice.place(SHEET);
    let any = wild::any_signed(dice);
    match dice.below(6) {
        0 => {
            sheet[0] =
                dice.pick(&[-1, 99_999_999, 100_000_000, 100_000_001, i64::MIN, i64::MAX, any])
        }
        1 => sheet[place] = limit.saturating_add(dice.within(0, 1)),
        2 => sheet[place] = (-limit).saturating_sub(dice.within(0, 1)),
        3 => sheet[place] = any,
        4 => amounts[place] = dice.pick(&[-1, 30_000_000_001, -30_000_000_000, -30_000_000_001]),
        _ => amounts[place] = any,
    }
}

/// Adds to sheets at the edges of what they hold, and beyond.
pub fn wild_sheets(dice: &mut Dice, tally: &mut Tally, times: u64) -> Result<(), String> {
    for _ in 0..times {
        let (mut sheet, mut amounts) = (fair_sheet(dice), fair_amounts(dice));
        for _ in 0..dice.pick(&[0, 1, 1, 1, 2]) {
            wilder(dice, &mut sheet, &mut amounts);
        }
        match dice.below(30) {
            0 => sheet.resize(wild::other_length(dice, SHEET, 1), 0),
            1 => amounts.resize(wild::other_length(dice, AMOUNTS, 1), 0),
            _ => {}
        }
        let number = if dice.once_in(12) { wild::any(dice) } else { 0 };
        Pair::of(&sheet).add(number, &amounts, tally)?;
    }
    Ok(())
}
