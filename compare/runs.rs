//! Long runs of a site: days, voids among them, with collections and moves in between; each answer is added to a sheet.

use crate::given::{Given, Slices, both, take};
use crate::lent::Lent;
use crate::tally::Tally;
use crate::waterbook::{OLD_ROW, ROW, SOIL, SUMS};
use crate::{collects, heads, moves, sheets, wild};
use second::made::dice::Dice;
use second::made::readings::next_reading;
use second::made::site::Site;
use second::made::sums::made_sums;
use second::made::wet::{wet_reading, wet_site};
use second::numbers::{Entry, Reading};
use second::sums::Sums;

/// What runs must meet beside their days.
pub const RUNS: &[&str] = &[
    "from cleared rows",
    "from rows moved over",
    "from rows with sums",
    "15, and accepted once it is collected",
    "15, and left",
    "a cell collected",
    "a void over sums that are not 0",
    "kept from going back by its sums",
    "collected whole, moved back and over",
];

/// Runoff and drainage of a cell, over more than a row can hold.
type Both = [u128; SUMS];

/// What the cells of a site held at first, what their answers have reported since, and what was collected of them.
struct Account {
    first: Vec<Both>,
    reported: Vec<Both>,
    collected: Vec<Both>,
}

/// Add two numbers to others.
fn add(to: &mut Both, more: [u64; SUMS]) {
    to.iter_mut().zip(more).for_each(|(sum, more)| *sum += u128::from(more));
}

/// Both sums of a row.
fn of_row(row: &[u32]) -> [u64; SUMS] {
    let sums = Sums::of(row);
    [sums.runoff, sums.drainage]
}

impl Account {
    /// The account of rows at the start of a run.
    fn of(rows: &[u32]) -> Account {
        let first: Vec<Both> = rows.chunks(ROW).map(|row| of_row(row).map(u128::from)).collect();
        let nothing = vec![[0; SUMS]; first.len()];
        Account { first, reported: nothing.clone(), collected: nothing }
    }

    /// Collected plus still held is what was held at first and what the answers reported.
    fn holds(&self, rows: &[u32]) -> Result<(), String> {
        for (cell, row) in rows.chunks(ROW).enumerate() {
            let (mut gone, mut come) = (self.collected[cell], self.first[cell]);
            add(&mut gone, of_row(row));
            come.iter_mut().zip(self.reported[cell]).for_each(|(sum, more)| *sum += more);
            if gone != come {
                return Err(format!("cell {cell}: collected and held {gone:?}, reported {come:?}"));
            }
        }
        Ok(())
    }
}

/// A site on its way: what is lent to both, its sheet and its account.
struct Run {
    site: Site,
    given: Given,
    slices: Slices,
    sheet: sheets::Pair,
    account: Account,
}

impl Run {
    /// A site whose rows are cleared, moved over from rows without sums, or with sums already.
    fn start(mut site: Site, dice: &mut Dice, tally: &mut Tally) -> Result<Run, String> {
        match dice.below(4) {
            0 => {
                wild::fair_rows(dice, &mut site.rows, site.card.delays);
                let mut over = moves::Given::by(&site, moves::Way::Over);
                moves::moved(&mut over, 0, tally)?;
                site.rows = over.written;
                tally.meet("runs", "from rows moved over");
            }
            1 => {
                site.rows.chunks_mut(ROW).for_each(|row| made_sums(dice).write(row));
                tally.meet("runs", "from rows with sums");
            }
            _ => tally.meet("runs", "from cleared rows"),
        }
        let given = Given::by(&site);
        let (slices, account) = (Slices::lend(&given), Account::of(&site.rows));
        Ok(Run { site, given, slices, sheet: sheets::Pair::empty(), account })
    }

    /// One entry by both, its answer on the sheet and in the account; its number.
    fn enter(&mut self, entry: &Entry, tally: &mut Tally) -> Result<u32, String> {
        take(&mut self.given, &mut self.slices, entry);
        let number = both(&mut self.given, &mut self.slices, tally)?;
        self.sheet.add(number, &self.given.amounts, tally)?;
        if number == 0 {
            let cell = entry.turn().cell as usize;
            let (runoff, drain) = (self.given.amounts[1], self.given.amounts[5]);
            add(&mut self.account.reported[cell], [runoff as u64, drain as u64]);
            let row = &self.given.rows[ROW * cell..][..ROW];
            if matches!(entry, Entry::Void(_)) && of_row(row) != [0; SUMS] {
                tally.meet("runs", "a void over sums that are not 0");
            }
        }
        self.site.rows.copy_from_slice(&self.given.rows);
        Ok(number)
    }

    /// One entry; where its sums are full, at times the cell is collected, and then the same entry is accepted.
    fn day(&mut self, entry: &Entry, dice: &mut Dice, tally: &mut Tally) -> Result<(), String> {
        if self.enter(entry, tally)? != 15 {
            return Ok(());
        }
        if dice.once_in(2) {
            tally.meet("runs", "15, and left");
            return Ok(());
        }
        self.collect(entry.turn().cell, tally)?;
        tally.meet("runs", "15, and accepted once it is collected");
        match self.enter(entry, tally)? {
            0 => Ok(()),
            number => Err(format!("refused with {number} once it was collected")),
        }
    }

    /// One cell collected by both.
    fn collect(&mut self, cell: u32, tally: &mut Tally) -> Result<(), String> {
        let mut given = collects::Given::by(&self.site, cell);
        let number = collects::both(&mut given, &mut self.slices.rows, tally)?;
        if number != 0 {
            return Err(format!("collecting cell {cell} is refused with {number}"));
        }
        add(&mut self.account.collected[cell as usize], [given.sums[0], given.sums[1]]);
        self.site.rows.copy_from_slice(&given.rows);
        self.given.rows = given.rows;
        tally.meet("runs", "a cell collected");
        Ok(())
    }

    /// The whole site moved back and over again, once all its cells are collected; it goes on with the rows written.
    fn back_and_over(&mut self, tally: &mut Tally) -> Result<(), String> {
        let held = self.site.rows.chunks(ROW).any(|row| row[OLD_ROW..] != [0; ROW - OLD_ROW]);
        let number = moves::both(&mut moves::Given::by(&self.site, moves::Way::Back), tally)?;
        if number != if held { 16 } else { 0 } {
            return Err(format!("a move back gives {number}"));
        }
        if held {
            tally.meet("runs", "kept from going back by its sums");
        }
        (0..self.site.card.cells).try_for_each(|cell| self.collect(cell, tally))?;
        let written = moves::back_and_over(&self.site, tally)?;
        self.slices.rows = Lent::new(&written, 0x5a5a_5a5a);
        tally.meet("runs", "collected whole, moved back and over");
        Ok(())
    }

    /// What comes between two days at times: a collection, or a move of the whole site.
    fn between(&mut self, dice: &mut Dice, tally: &mut Tally) -> Result<(), String> {
        match dice.below(300) {
            0 => self.back_and_over(tally),
            1..=9 => self.collect(dice.place(self.site.card.cells as usize) as u32, tally),
            _ => Ok(()),
        }
    }
}

/// The reading of a day: on a wet site the delay falls by one each day, so that one slot gathers all.
fn reading(site: &Site, dice: &mut Dice, wet: bool, (day, weather): (u64, u64)) -> Reading {
    let delays = u64::from(site.card.delays);
    let mut reading = if wet {
        wet_reading(site, dice, (delays - day % (delays + 1)) as u32, weather)
    } else {
        next_reading(site, dice)
    };
    if dice.once_in(12) {
        reading.head = heads::made(dice);
    }
    reading
}

/// Many days of a site on both sides. In the end what was collected and is still held must be what was reported.
pub fn run(dice: &mut Dice, tally: &mut Tally, days: u64) -> Result<(), String> {
    let wet = dice.once_in(5);
    let site = if wet { wet_site(dice) } else { Site::made(dice) };
    let (weather, rarity) = (dice.pick(&[4, 12, 1000]), dice.pick(&[4, 20, 20, 1000]));
    let mut run = Run::start(site, dice, tally)?;
    for day in 0..days {
        let reading = reading(&run.site, dice, wet, (day, weather));
        let void = dice.once_in(rarity);
        let entry = if void { Entry::Void(reading.turn()) } else { Entry::Reading(reading) };
        run.day(&entry, dice, tally)
            .and_then(|()| run.between(dice, tally))
            .map_err(|what| format!("day {day} of a run\n{what}\n{}", told(&run.site, &entry)))?;
    }
    run.account.holds(&run.given.rows)
}

/// What a day of a run was given, in words.
fn told(site: &Site, entry: &Entry) -> String {
    let cell = entry.turn().cell as usize;
    let (plot, row) = (site.soil.chunks(SOIL).nth(cell), site.rows.chunks(ROW).nth(cell));
    format!("card {:?}\nsoil {plot:?}\nrow {row:?}\n{entry:?}", site.card)
}
