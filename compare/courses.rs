//! The courses of the race: sites, and the readings that are given to them.

use crate::waterbook::{self, ROW, SOIL};
use second::made::dice::Dice;
use second::made::readings::{card_bytes, reading_bytes};
use second::made::site::Site;
use second::numbers::{Card, MOST_RAIN, Reading};
use second::sums::{MOST_SUMMED, Sums};

/// Readings of a course, and how often they are gone through for one time.
pub const READINGS: usize = 4096;
pub const TIMES: usize = 6;
/// The top of every plot, in µm.
const TOP: i64 = 10_000_000;
/// The first delay depth and the way from one to the next, in µm.
const FIRST: i64 = 500_000;
const NEXT: i64 = 250_000;

/// Sums to which nothing can be added.
const FULL: Sums = Sums { runoff: MOST_SUMMED, drainage: MOST_SUMMED };

/// Where the water table stands: about the plants' roots, between the delay depths, or below the last of them.
#[derive(Clone, Copy, PartialEq)]
pub enum Table {
    Shallow,
    Middle,
    Deep,
}

/// Every table, with its name.
const TABLES: [(Table, &str); 3] =
    [(Table::Shallow, "shallow"), (Table::Middle, "middle"), (Table::Deep, "deep")];

/// A site with rows as they are before a run, and the readings of the run.
pub struct Course {
    pub site: Site,
    pub readings: Vec<Reading>,
}

/// The card of a site with so many cells and delays, and the usual share.
fn card(cells: u32, delays: u32) -> Card {
    let mut card = Card { cells, delays, ..Card::BLANK };
    for place in 0..delays as usize {
        card.depths[place] = (FIRST + NEXT * place as i64) as u32;
    }
    card
}

/// The last delay depth; the first where there is none.
fn last_depth(delays: u32) -> i64 {
    FIRST + NEXT * (i64::from(delays.max(1)) - 1)
}

/// A head that puts the water table at a depth, or dry now and then over a deep one.
fn head(dice: &mut Dice, table: Table, delays: u32) -> u32 {
    let last = last_depth(delays);
    let depth = match table {
        Table::Shallow => dice.within(-200_000, 300_000),
        Table::Middle => dice.within(FIRST, last - 1),
        Table::Deep if dice.once_in(16) => return 0xf149_f2ca,
        Table::Deep => dice.within(last + 1, last + 1_000_000),
    };
    ((TOP - depth) as f32 / 1_000_000.0).to_bits()
}

/// A day's reading of a cell, without its turn.
fn day(dice: &mut Dice, cell: usize, table: Table, delays: u32) -> Reading {
    let pet = dice.below(6000) as u32;
    Reading {
        cell: cell as u32,
        rain: if dice.once_in(3) { dice.below(60_000) as u32 } else { 0 },
        irrig: if dice.once_in(4) { dice.below(20_000) as u32 } else { 0 },
        septic: dice.below(1000) as u32,
        etmin: dice.below(u64::from(pet) + 1) as u32,
        pet,
        amc: dice.within(1, 3) as u32,
        head: head(dice, table, delays),
        ..Reading::default()
    }
}

/// A site of so many cells in order, its rows in life 3 with count 7 due.
fn site(cells: u32, delays: u32) -> Site {
    let plots = cells as usize;
    let soil = [TOP, 1_500_000, 200, 100_000, 80].repeat(plots);
    let mut row = [0; ROW];
    (row[0], row[1]) = (3, 7);
    Site { card: card(cells, delays), soil, rows: row.repeat(plots), usual: Vec::new() }
}

/// A course of accepted readings, the cells in any order.
pub fn accepted(cells: u32, delays: u32, table: Table) -> Course {
    let (dice, site) = (&mut Dice::new(11), site(cells, delays));
    let mut due = vec![7; cells as usize];
    let mut readings = Vec::new();
    for _ in 0..READINGS {
        let cell = dice.place(cells as usize);
        readings.push(Reading { life: 3, count: due[cell], ..day(dice, cell, table, delays) });
        due[cell] += 1;
    }
    Course { site, readings }
}

/// A course of refused readings: 3, 6, 7, 8, 9 and 10, each as often as another.
fn refused(cells: u32, delays: u32, table: Table) -> Course {
    let (dice, site) = (&mut Dice::new(13), site(cells, delays));
    let mut readings = Vec::new();
    for _ in 0..READINGS {
        let cell = dice.place(cells as usize);
        let mut reading = Reading { life: 3, count: 7, ..day(dice, cell, table, delays) };
        match dice.below(6) {
            0 => reading.cell = cells,
            1 => reading.count = 6,
            2 => reading.count = 8,
            3 => reading.amc = 0,
            4 => reading.head = 0x7fc0_0000,
            _ => reading.head = 0x7149_f2ca,
        }
        readings.push(reading);
    }
    Course { site, readings }
}

/// A course of readings that all get one refusal number.
pub fn refused_with(number: u32, delays: u32) -> Course {
    let mut course = accepted(4, delays, Table::Deep);
    let site = &mut course.site;
    match number {
        1 => site.card.depths[delays as usize - 1] = site.card.depths[delays as usize - 2],
        2 => drop(site.rows.pop()),
        4 => site.soil.chunks_mut(SOIL).for_each(|plot| plot[4] = 0),
        5 => site.rows.chunks_mut(ROW).for_each(|row| row[31] = 1),
        15 => site.rows.chunks_mut(ROW).for_each(|row| FULL.write(row)),
        _ => {}
    }
    for reading in &mut course.readings {
        reading.count = 7;
        match number {
            3 => reading.cell = 4,
            6 => reading.count = 6,
            7 => reading.count = 8,
            8 => reading.amc = 0,
            9 => reading.head = 0x7fc0_0000,
            10 => reading.head = 0x7149_f2ca,
            15 => reading.rain = MOST_RAIN,
            17 => reading.rain = MOST_RAIN + 1,
            _ => {}
        }
    }
    course
}

/// A course for each line of a printed table: M, where the water table stands, what readings. With M = 0 there is no middle.
pub fn courses() -> Vec<(String, Course)> {
    let mut courses = Vec::new();
    for delays in [0, 5, 30] {
        for (table, name) in TABLES {
            if delays == 0 && table == Table::Middle {
                continue;
            }
            courses.push((format!("{delays} | {name} | accepted"), accepted(4, delays, table)));
            courses.push((format!("{delays} | {name} | refused"), refused(4, delays, table)));
        }
    }
    courses
}

/// The journal of a course, as many readings as it holds; counts start at 0 in a journal.
pub fn journal(course: &Course) -> Vec<u8> {
    let mut bytes = card_bytes(&course.site);
    for reading in &course.readings {
        let count = if reading.count >= 7 { reading.count - 7 } else { 999 };
        let line = reading_bytes(&Reading { life: 0, count, ..*reading });
        if bytes.len() + line.len() > waterbook::LONGEST {
            break;
        }
        bytes.extend(line);
    }
    bytes
}
