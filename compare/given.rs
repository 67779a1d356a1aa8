//! What a call for a reading or a void is given, and one such call by both sides, held to each other.

use crate::branches::{self, Met};
use crate::lent::{Lent, equal, same};
use crate::numbers::{amounts_numbers, card_numbers, card_of};
use crate::numbers::{reading_numbers, reading_of, void_numbers, void_of};
use crate::tally::Tally;
use crate::waterbook::{AMOUNTS, CARD, NOT_THE_COUNT, NOTICE, READING, ROW, SOIL, raw};
use crate::{refusals, sums, voids};
use second::made::site::Site;
use second::numbers::{Entry, Reading, Void};

/// Which call is made: a reading's step or a void.
#[derive(Clone, Copy, Debug, PartialEq)]
pub enum Call {
    Step,
    Void,
}

impl Call {
    /// How many numbers its reading or void has.
    pub fn width(self) -> usize {
        match self {
            Call::Step => READING,
            Call::Void => NOTICE,
        }
    }

    /// The call's name in the tally.
    pub fn name(self) -> &'static str {
        match self {
            Call::Step => "step",
            Call::Void => "void",
        }
    }

    /// The heading of what such a call is refused for before its figures.
    fn refusals(self) -> &'static str {
        match self {
            Call::Step => "refused for",
            Call::Void => "voids refused for",
        }
    }
}

/// What a call is given, in numbers; the slices may have any length.
#[derive(Clone, Debug)]
pub struct Given {
    pub call: Call,
    pub card: Vec<u32>,
    pub soil: Vec<i64>,
    pub rows: Vec<u32>,
    /// The numbers of a reading, or of a void.
    pub entry: Vec<u32>,
    pub amounts: Vec<i64>,
}

impl Given {
    /// What a site gives, with amounts that hold something else before the call.
    pub fn by(site: &Site) -> Given {
        Given {
            call: Call::Step,
            card: card_numbers(&site.card).to_vec(),
            soil: site.soil.clone(),
            rows: site.rows.clone(),
            entry: vec![0; READING],
            amounts: vec![-1; AMOUNTS],
        }
    }

    /// The first slice that has not its count of numbers, if one has not.
    pub fn wrong_count(&self) -> Option<&'static str> {
        if self.card.len() != CARD {
            Some(refusals::card_count(self.card.len()))
        } else if self.entry.len() != self.call.width() {
            Some("255 reading or void")
        } else if self.amounts.len() != AMOUNTS {
            Some("255 amounts")
        } else {
            None
        }
    }

    /// The second's answer to what is given: its number; rows and amounts as they are after it.
    fn second(&mut self, tally: &mut Tally) -> u32 {
        if let Some(name) = self.wrong_count() {
            tally.meet(self.call.refusals(), name);
            return NOT_THE_COUNT;
        }
        match self.call {
            Call::Step => self.second_step(&reading_of(&self.entry), tally),
            Call::Void => self.second_void(&void_of(&self.entry), tally),
        }
    }

    /// The second's step.
    fn second_step(&mut self, reading: &Reading, tally: &mut Tally) -> u32 {
        let card = &card_of(&self.card);
        let before = sums::held(&self.rows, reading.cell);
        let (number, answer) = second::step::step(card, &self.soil, &mut self.rows, reading);
        self.amounts.copy_from_slice(&amounts_numbers(&answer));
        if number == 0 {
            let cell = reading.cell as usize;
            let (soil, after) = (&self.soil[SOIL * cell..], &self.rows[ROW * cell..]);
            branches::accepted(&Met { card, soil, after, reading, answer: &answer }, tally);
            sums::added(before, &answer, tally);
        } else {
            refusals::refused(number, card, &self.soil, &self.rows, reading, tally);
        }
        number
    }

    /// The second's void.
    fn second_void(&mut self, void: &Void, tally: &mut Tally) -> u32 {
        let card = &card_of(&self.card);
        let life = self.rows.get(ROW.saturating_mul(void.cell as usize)).copied();
        let before = sums::held(&self.rows, void.cell);
        let (number, answer) = second::step::void(card, &self.soil, &mut self.rows, void);
        self.amounts.copy_from_slice(&amounts_numbers(&answer));
        if number == 0 {
            voids::accepted(card, life, void, &answer, tally);
            voids::kept(before, tally);
        } else {
            let name = refusals::turn_fault(number, card, &self.soil, &self.rows, void);
            tally.meet(self.call.refusals(), name);
        }
        number
    }
}

/// The slices lent to the library for a run of calls.
pub struct Slices {
    card: Lent<u32>,
    soil: Lent<i64>,
    pub rows: Lent<u32>,
    entry: Lent<u32>,
    amounts: Lent<i64>,
}

impl Slices {
    /// Slices that hold what is given.
    pub fn lend(given: &Given) -> Slices {
        Slices {
            card: Lent::new(&given.card, 0xa5a5_a5a5),
            soil: Lent::new(&given.soil, -77),
            rows: Lent::new(&given.rows, 0x5a5a_5a5a),
            entry: Lent::new(&given.entry, 0xc3c3_c3c3),
            amounts: Lent::new(&given.amounts, -99),
        }
    }

    /// The library's answer.
    fn library(&mut self, call: Call) -> u32 {
        let (card, soil, entry) = (self.card.held(), self.soil.held(), self.entry.held());
        let (rows, amounts) = (self.rows.slice(), self.amounts.slice());
        match call {
            Call::Step => raw::step(card, soil, rows, entry, amounts),
            Call::Void => raw::void(card, soil, rows, entry, amounts),
        }
    }

    /// All slices against what is given, and the amounts against the second's.
    fn same(&self, given: &Given) -> Result<(), String> {
        same("amounts", &self.amounts, &given.amounts)?;
        same("rows", &self.rows, &given.rows)?;
        same("card", &self.card, &given.card)?;
        same("soil", &self.soil, &given.soil)?;
        same("reading or void", &self.entry, &given.entry)
    }
}

/// One call by both, held to each other; its number.
pub fn both(given: &mut Given, slices: &mut Slices, tally: &mut Tally) -> Result<u32, String> {
    let number = given.second(tally);
    let answered = slices.library(given.call);
    tally.steps += 1;
    tally.number(given.call.name(), number);
    equal("number", answered, number)?;
    slices.same(given)?;
    Ok(number)
}

/// Put a reading or a void into what is given and into the lent slice.
pub fn take(given: &mut Given, slices: &mut Slices, entry: &Entry) {
    (given.call, given.entry) = match entry {
        Entry::Reading(reading) => (Call::Step, reading_numbers(reading).to_vec()),
        Entry::Void(void) => (Call::Void, void_numbers(void).to_vec()),
    };
    slices.entry = Lent::new(&given.entry, 0xc3c3_c3c3);
}
