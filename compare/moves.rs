//! Moves of whole sites, over from rows without sums and back to them, by the library and by the second program.

use crate::lent::{Lent, equal, same};
use crate::numbers::{card_numbers, card_of};
use crate::refusals::{card_count, card_fault, row_fault};
use crate::steps::small_site;
use crate::tally::Tally;
use crate::waterbook::{CARD, CELLS, NOT_THE_COUNT, OLD_ROW, ROW, raw};
use crate::wild;
use second::made::dice::Dice;
use second::made::site::Site;
use second::numbers::{Card, old_row_in_range, row_in_range, slot_limit};
use second::sums::{Sums, grow, shrink};

/// What moves must come to, whichever way, their cards aside.
pub const MOVES: &[&str] = &[
    "0 moved",
    "0 moved, the most cells",
    "2 taken rows short",
    "2 taken rows long",
    "2 written rows short",
    "2 written rows long",
    "2 taken and written rows exchanged",
    "5 life",
    "5 next count",
    "5 slot above its limit",
    "5 slot above M",
    "5 first row",
    "5 last row",
    "5 row between",
];

/// What moves back must come to beside that, by the sums.
pub const SUMS: &[&str] = &[
    "5 runoff above 10^18",
    "5 drainage above 10^18",
    "5 behind a sum that isn't 0",
    "16 runoff",
    "16 drainage",
    "16 both",
    "16 by a low number alone",
    "16 by a high number alone",
    "16 first row alone",
    "16 last row alone",
];

/// Which way a site is moved.
#[derive(Clone, Copy, Debug, PartialEq)]
pub enum Way {
    Over,
    Back,
}

impl Way {
    /// The call's name in the tally.
    fn name(self) -> &'static str {
        match self {
            Way::Over => "grow",
            Way::Back => "shrink",
        }
    }

    /// The heading of what such moves come to.
    fn heading(self) -> &'static str {
        match self {
            Way::Over => "moves over",
            Way::Back => "moves back",
        }
    }

    /// Numbers per cell of the rows taken and of those written.
    fn widths(self) -> (usize, usize) {
        match self {
            Way::Over => (OLD_ROW, ROW),
            Way::Back => (ROW, OLD_ROW),
        }
    }

    /// Is a row in range that is taken?
    fn sound(self, row: &[u32], delays: u32) -> bool {
        match self {
            Way::Over => old_row_in_range(row, delays),
            Way::Back => row_in_range(row, delays),
        }
    }
}

/// What a move is given, in numbers; the slices may have any length.
#[derive(Clone, Debug)]
pub struct Given {
    way: Way,
    card: Vec<u32>,
    /// The rows that are taken.
    taken: Vec<u32>,
    /// Where rows are written.
    pub written: Vec<u32>,
}

impl Given {
    /// What a site gives, its rows cut to their first 32 numbers for a move over; other numbers stand where rows go.
    pub fn by(site: &Site, way: Way) -> Given {
        let (width, other) = way.widths();
        let taken = site.rows.chunks(ROW).flat_map(|row| &row[..width]).copied().collect();
        let written = (0..other * site.card.cells as usize).map(|place| place as u32).collect();
        Given { way, card: card_numbers(&site.card).to_vec(), taken, written }
    }

    /// The second's answer to what is given: its number; the written rows as they are after it.
    fn second(&mut self, tally: &mut Tally) -> u32 {
        if self.card.len() != CARD {
            tally.meet(self.way.heading(), card_count(self.card.len()));
            return NOT_THE_COUNT;
        }
        let card = card_of(&self.card);
        let number = match self.way {
            Way::Over => grow(&card, &self.taken, &mut self.written),
            Way::Back => shrink(&card, &self.taken, &mut self.written),
        };
        self.meet(number, &card, tally);
        number
    }

    /// Note what the move came to.
    fn meet(&self, number: u32, card: &Card, tally: &mut Tally) {
        let mut meet = |name| {
            let by_sums = SUMS.contains(&name);
            tally.meet(if by_sums { "moves back, by the sums" } else { self.way.heading() }, name);
        };
        match number {
            0 if card.cells as usize == CELLS => meet("0 moved, the most cells"),
            0 => meet("0 moved"),
            1 => meet(card_fault(card)),
            2 => meet(self.length_fault(card)),
            5 => self.row_faults(card).into_iter().for_each(meet),
            _ => self.held(meet),
        }
    }

    /// What is wrong with the lengths.
    fn length_fault(&self, card: &Card) -> &'static str {
        let (cells, (width, other)) = (card.cells as usize, self.way.widths());
        let (taken, written) = (self.taken.len(), self.written.len());
        match (taken.cmp(&(width * cells)), written.cmp(&(other * cells))) {
            _ if (taken, written) == (other * cells, width * cells) => {
                "2 taken and written rows exchanged"
            }
            (std::cmp::Ordering::Less, _) => "2 taken rows short",
            (std::cmp::Ordering::Greater, _) => "2 taken rows long",
            (_, std::cmp::Ordering::Less) => "2 written rows short",
            _ => "2 written rows long",
        }
    }

    /// What is wrong with the first row out of range, where it stands, and whether a sum before it isn't 0.
    fn row_faults(&self, card: &Card) -> Vec<&'static str> {
        let (width, _) = self.way.widths();
        let mut rows = self.taken.chunks(width);
        let Some(place) = rows.position(|row| !self.way.sound(row, card.delays)) else {
            return vec!["5 of no row"];
        };
        let stands = match place {
            0 => "5 first row",
            place if place + 1 == card.cells as usize => "5 last row",
            _ => "5 row between",
        };
        let mut names = vec![row_fault(&self.taken[width * place..][..width], card.delays), stands];
        let mut before = self.taken[..width * place].chunks(width);
        if self.way == Way::Back && before.any(|row| Sums::of(row) != Sums::default()) {
            names.push("5 behind a sum that isn't 0");
        }
        names
    }

    /// Note which sums kept a site from going back.
    fn held(&self, mut meet: impl FnMut(&'static str)) {
        let rows = self.taken.chunks(ROW).map(Sums::of).enumerate();
        let held: Vec<(usize, Sums)> = rows.filter(|(_, sums)| *sums != Sums::default()).collect();
        let (runoff, drainage) =
            held.iter().fold((0, 0), |(r, d), (_, sums)| (r | sums.runoff, d | sums.drainage));
        meet(match (runoff, drainage) {
            (_, 0) => "16 runoff",
            (0, _) => "16 drainage",
            _ => "16 both",
        });
        match (runoff | drainage) >> 32 {
            0 => meet("16 by a low number alone"),
            _ if (runoff | drainage) as u32 == 0 => meet("16 by a high number alone"),
            _ => {}
        }
        match held[..] {
            [(0, _)] => meet("16 first row alone"),
            [(place, _)] if place + 1 == self.taken.len() / ROW => meet("16 last row alone"),
            _ => {}
        }
    }
}

/// One move by both, held to each other; its number.
pub fn both(given: &mut Given, tally: &mut Tally) -> Result<u32, String> {
    let (card, taken) = (Lent::new(&given.card, 0xa5a5_a5a5), Lent::new(&given.taken, 0x6b6b_6b6b));
    let mut written = Lent::new(&given.written, 0x5a5a_5a5a);
    let number = given.second(tally);
    let answered = match given.way {
        Way::Over => raw::grow(card.held(), taken.held(), written.slice()),
        Way::Back => raw::shrink(card.held(), taken.held(), written.slice()),
    };
    tally.moves += 1;
    tally.number(given.way.name(), number);
    equal("number", answered, number)?;
    same("written rows", &written, &given.written)?;
    same("taken rows", &taken, &given.taken)?;
    same("card", &card, &given.card)?;
    Ok(number)
}

/// Moves of sites in order and not, with slices of any length.
pub fn wild_moves(dice: &mut Dice, tally: &mut Tally, way: Way, times: u64) -> Result<(), String> {
    let mut site = small_site(dice);
    for _ in 0..times {
        wild::fair_rows(dice, &mut site.rows, site.card.delays);
        if dice.once_in(2) {
            collected(dice, &mut site);
        }
        let mut given = Given::by(&site, way);
        given.written.fill_with(|| wild::any(dice));
        for _ in 0..dice.pick(&[0, 0, 1, 1, 1, 2, 3]) {
            wilder(dice, &mut given);
        }
        let asked = given.clone();
        both(&mut given, tally).map_err(|what| format!("{}\n{what}\n{asked:?}", way.name()))?;
    }
    Ok(())
}

/// One of so many rows: the first, the last, or any.
fn a_row(dice: &mut Dice, rows: usize) -> usize {
    let any = dice.place(rows);
    dice.pick(&[0, rows - 1, any])
}

/// Sums set to 0 in all rows, but for one number of one row at times.
fn collected(dice: &mut Dice, site: &mut Site) {
    site.rows.chunks_mut(ROW).for_each(|row| row[OLD_ROW..].fill(0));
    if dice.once_in(2) {
        let place = ROW * a_row(dice, site.card.cells as usize) + dice.within(32, 35) as usize;
        site.rows[place] = dice.pick(&[1, 1 << 27]);
    }
}

/// One wild thing done to what a move is given.
fn wilder(dice: &mut Dice, given: &mut Given) {
    if given.card.len() != CARD {
        return;
    }
    let (cells, delays) = (given.card[0] as usize, given.card[1]);
    let (width, other) = given.way.widths();
    match dice.below(12) {
        0 | 1 => wild::card(dice, &mut given.card),
        2..=6 if !given.taken.is_empty() && given.taken.len() % width == 0 => {
            let start = width * a_row(dice, given.taken.len() / width);
            wild::row(dice, &mut given.taken[start..start + width], delays);
        }
        7 => given.taken.resize(wild::other_length(dice, given.taken.len(), width), 0),
        8 => given.written.resize(wild::other_length(dice, given.written.len(), other), 3),
        9 if cells <= CELLS => {
            given.taken.resize(other * cells, 0);
            given.written.resize(width * cells, 3);
        }
        10 => given.card.resize(wild::other_length(dice, CARD, 1), 0),
        _ => {}
    }
}

/// What the sweep over sites of several sizes must meet.
pub const SITES: &[&str] =
    &["back and over", "kept by a sum", "kept by a row, over", "kept by a row, back"];

/// A site of so many cells, each row with numbers of its own and a queue that is full in the last.
fn site_of(cells: usize, delays: u32) -> Site {
    let mut card = Card { cells: cells as u32, delays, ..Card::BLANK };
    (1..=delays).for_each(|k| card.depths[k as usize - 1] = 1000 * k);
    let mut rows = vec![0; ROW * cells];
    for (cell, row) in rows.chunks_mut(ROW).enumerate() {
        (row[0], row[1]) = (cell as u32, 1_000_000 - cell as u32);
        for k in 1..=delays {
            let limit = slot_limit(k, delays);
            row[1 + k as usize] = if cell + 1 == cells { limit } else { limit / (1 + cell as u32) };
        }
    }
    Site { card, soil: Vec::new(), rows, usual: Vec::new() }
}

/// Sites of several sizes back and over to the very rows, and kept where they are by each row in turn.
pub fn sites(tally: &mut Tally) -> Result<(), String> {
    for (cells, delays) in [(1, 0), (1, 30), (2, 1), (3, 30), (9, 5), (CELLS, 30)] {
        let site = site_of(cells, delays);
        back_and_over(&site, tally)
            .and_then(|_| kept(&site, tally))
            .map_err(|what| format!("{cells} cells, {delays} delays\n{what}"))?;
    }
    Ok(())
}

/// A move by both that must give a number.
pub fn moved(given: &mut Given, wanted: u32, tally: &mut Tally) -> Result<(), String> {
    let number = both(given, tally)?;
    if number == wanted {
        return Ok(());
    }
    Err(format!("{} gives {number} and not {wanted}", given.way.name()))
}

/// A site without sums moved back and over again, to the very rows that it had: those that were written in the end.
pub fn back_and_over(site: &Site, tally: &mut Tally) -> Result<Vec<u32>, String> {
    let mut back = Given::by(site, Way::Back);
    moved(&mut back, 0, tally)?;
    let mut over = Given::by(site, Way::Over);
    over.taken.copy_from_slice(&back.written);
    moved(&mut over, 0, tally)?;
    let cut: Vec<u32> = site.rows.chunks(ROW).flat_map(|row| &row[..OLD_ROW]).copied().collect();
    if back.written != cut || over.written != site.rows {
        return Err(format!("back {:?}\nover {:?}", back.written, over.written));
    }
    tally.meet("sites moved", "back and over");
    Ok(over.written)
}

/// One number more in a row at a time: a sum that isn't 0, or a slot that is out of range.
fn kept(site: &Site, tally: &mut Tally) -> Result<(), String> {
    let cells = site.card.cells as usize;
    for row in (0..cells).filter(|row| *row < 3 || row + 3 > cells) {
        for place in OLD_ROW..ROW {
            let mut held = site.clone();
            held.rows[ROW * row + place] = 1;
            moved(&mut Given::by(&held, Way::Back), 16, tally)?;
            tally.meet("sites moved", "kept by a sum");
        }
        let mut bad = site.clone();
        bad.rows[ROW * row] = 65_536;
        moved(&mut Given::by(&bad, Way::Over), 5, tally)?;
        tally.meet("sites moved", "kept by a row, over");
        // A sum in the first row does not come before the row out of range.
        bad.rows[ROW - 1] = 1;
        moved(&mut Given::by(&bad, Way::Back), 5, tally)?;
        tally.meet("sites moved", "kept by a row, back");
    }
    Ok(())
}
