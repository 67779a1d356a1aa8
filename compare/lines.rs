//! The lines of answers and sheets: numbers in order and not, buffers of any size.

use crate::lent::{Lent, equal, same};
use crate::numbers::{amounts_of, sheet_of};
use crate::sheets::{fair_amounts, fair_sheet};
use crate::tally::Tally;
use crate::texts::{blank, buffer_length, got_slice};
use crate::waterbook::{AMOUNTS, ANSWER_TEXT, GOT, NOT_THE_COUNT, SHEET, SHEET_TEXT, raw};
use crate::wild;
use second::made::dice::Dice;
use second::text::{answer_line, sheet_line};

/// What answers must be met for.
pub const ANSWERS: &[&str] = &[
    "written",
    "written, recharge below 0",
    "written, the longest",
    "written, buffer exactly as long",
    "buffer too short",
    "number of no answer",
    "refused with an amount",
    "number negative",
    "numbers of another count",
    "got slice of another length",
];
/// What sheets must be met for.
pub const SHEETS: &[&str] = &[
    "written",
    "written, recharge below 0",
    "written, the longest",
    "written, buffer exactly as long",
    "buffer too short",
    "steps negative",
    "number negative",
    "numbers of another count",
    "got slice of another length",
];

/// The line that should be written, or why there is none.
type Line = Result<String, &'static str>;

/// The place of recharge among the amounts, and on a sheet.
const ANSWER_RECHARGE: usize = 8;
const SHEET_RECHARGE: usize = 9;

/// Is a number negative that may not be?
fn negative(numbers: &[i64], recharge: usize) -> bool {
    numbers.iter().enumerate().any(|(place, number)| place != recharge && *number < 0)
}

/// The second's line of an answer that some step gives.
fn answer_of(cell: u32, number: u32, amounts: &[i64]) -> Line {
    if amounts.len() != AMOUNTS {
        Err("numbers of another count")
    } else if number > 10 && number != 15 && number != 17 {
        Err("number of no answer")
    } else if number != 0 && amounts.iter().any(|amount| *amount != 0) {
        Err("refused with an amount")
    } else if negative(amounts, ANSWER_RECHARGE) {
        Err("number negative")
    } else {
        Ok(answer_line(cell, number, &amounts_of(amounts)))
    }
}

/// The second's line of a sheet without a negative number.
fn sheet_text(sheet: &[i64]) -> Line {
    if sheet.len() != SHEET {
        Err("numbers of another count")
    } else if sheet[0] < 0 {
        Err("steps negative")
    } else if negative(sheet, SHEET_RECHARGE) {
        Err("number negative")
    } else {
        Ok(sheet_line(&sheet_of(sheet)))
    }
}

/// Ten numbers: fair ones, any that can stand in a line, the longest, or zeros; at times one of them wild.
fn ten(dice: &mut Dice, fair: Vec<i64>, recharge: usize) -> Vec<i64> {
    let mut numbers = match dice.below(6) {
        0 | 1 => fair,
        2 => vec![0; fair.len()],
        3 => vec![i64::MAX; fair.len()],
        _ => (0..fair.len()).map(|_| wild::any_signed(dice) & i64::MAX).collect(),
    };
    if dice.once_in(2) {
        numbers[recharge] = dice.pick(&[i64::MIN, i64::MAX, -1]);
    }
    if dice.once_in(8) {
        let place = dice.place(numbers.len());
        numbers[place] = wild::any_signed(dice);
    }
    if dice.once_in(30) {
        numbers.resize(wild::other_length(dice, numbers.len(), 1), 0);
    }
    numbers
}

/// What a writer was lent beside its numbers.
struct Room {
    buffer: Vec<u8>,
    got: Vec<usize>,
}

impl Room {
    /// Room about as long as the line.
    fn about(dice: &mut Dice, line: &Line) -> Room {
        let length = buffer_length(dice, line.as_ref().map_or(150, String::len));
        Room { buffer: blank(dice, length), got: got_slice(dice) }
    }

    /// Put the line into the room: the number, and what the case came to.
    fn take(&mut self, line: &Line) -> (u32, &'static str) {
        if self.got.len() != GOT {
            return (NOT_THE_COUNT, "got slice of another length");
        }
        if *line == Err("numbers of another count") {
            return (NOT_THE_COUNT, "numbers of another count");
        }
        self.got.fill(0);
        match line {
            Err(why) => (12, why),
            Ok(line) if self.buffer.len() < line.len() => (12, "buffer too short"),
            Ok(line) => {
                self.buffer[..line.len()].copy_from_slice(line.as_bytes());
                self.got[0] = line.len();
                let exact = self.buffer.len() == line.len();
                (0, if exact { "written, buffer exactly as long" } else { "written" })
            }
        }
    }
}

/// One line written by the library into slices of these, and held to what the second's line makes of them.
fn written(
    line: &Line,
    mut room: Room,
    numbers: &[i64],
    write: impl Fn(&[i64], &mut [u8], &mut [usize]) -> u32,
) -> Result<(u32, &'static str), String> {
    let lent = Lent::new(numbers, -66);
    let (mut lent_buffer, mut lent_got) = (Lent::new(&room.buffer, b' '), Lent::new(&room.got, 9));
    let answered = write(lent.held(), lent_buffer.slice(), lent_got.slice());
    let (number, name) = room.take(line);
    equal("number", answered, number)?;
    same("got", &lent_got, &room.got)?;
    same("buffer", &lent_buffer, &room.buffer)?;
    same("numbers", &lent, numbers)?;
    Ok((number, name))
}

/// Write an answer's line on both sides.
pub fn write_answer(dice: &mut Dice, tally: &mut Tally) -> Result<(), String> {
    let (cell, some) = (wild::any(dice), wild::any(dice));
    let number = dice.pick(&[0, 0, 0, 1 + some % 10, 1 + some % 10, 11 + some % 8, 15, 17, some]);
    let fair = fair_amounts(dice);
    let mut amounts = ten(dice, fair, ANSWER_RECHARGE);
    if number != 0 && !dice.once_in(4) {
        amounts.fill(0);
    }
    let line = answer_of(cell, number, &amounts);
    let room = Room::about(dice, &line);
    let (answered, name) = written(&line, room, &amounts, |n, buffer, got| {
        raw::write_answer(cell, number, n, buffer, got)
    })
    .map_err(|what| format!("write_answer\n{what}\n{cell} {number} {amounts:?}"))?;
    tally.texts += 1;
    tally.number("write_answer", answered);
    tally.meet("answer lines", name);
    if answered == 0 {
        tally.number("answer lines", number);
    }
    meet_written(
        "answer lines",
        answered,
        &line,
        (amounts.get(ANSWER_RECHARGE), ANSWER_TEXT),
        tally,
    );
    Ok(())
}

/// Write a sheet's line on both sides.
pub fn write_sheet(dice: &mut Dice, tally: &mut Tally) -> Result<(), String> {
    let fair = fair_sheet(dice);
    let sheet = ten(dice, fair, SHEET_RECHARGE);
    let line = sheet_text(&sheet);
    let room = Room::about(dice, &line);
    let (answered, name) = written(&line, room, &sheet, raw::write_sheet)
        .map_err(|what| format!("write_sheet\n{what}\n{sheet:?}"))?;
    tally.texts += 1;
    tally.number("write_sheet", answered);
    tally.meet("sheet lines", name);
    meet_written("sheet lines", answered, &line, (sheet.get(SHEET_RECHARGE), SHEET_TEXT), tally);
    Ok(())
}

/// Meet what else is to be met of a line that was written.
fn meet_written(
    heading: &'static str,
    answered: u32,
    line: &Line,
    (recharge, longest): (Option<&i64>, usize),
    tally: &mut Tally,
) {
    if answered != 0 {
        return;
    }
    if recharge.is_some_and(|recharge| *recharge < 0) {
        tally.meet(heading, "written, recharge below 0");
    }
    if line.as_ref().is_ok_and(|line| line.len() == longest) {
        tally.meet(heading, "written, the longest");
    }
}
