//! "Numbers and their ranges": the records and what each may hold.

use crate::sums::Sums;

/// Places for delay depths on a card.
pub const ROOM: usize = 30;
/// Soil numbers per cell.
pub const SOIL: usize = 5;
/// Stored numbers per cell before sums were kept: life, next count, slots 1..30.
pub const OLD_ROW: usize = 32;
/// Stored numbers per cell: the same, then the sums of runoff and of drainage, a high and a low number each.
pub const ROW: usize = 36;
/// Stored numbers per cell of a ring row: the same, and last the start.
pub const RING_ROW: usize = 37;
/// The largest single water field of a reading, in micrometres.
pub const MOST: u32 = 1_000_000;
/// The most rain that is believed of one day, in micrometres: above it a bucket is jammed.
pub const MOST_RAIN: u32 = 600_000;
/// The share that a card has whose text names none.
pub const USUAL_SHARE: u32 = 20;

/// The card of a site, with its delay depths.
#[derive(Clone, Copy, Debug, PartialEq, Eq)]
pub struct Card {
    pub cells: u32,
    pub delays: u32,
    pub depths: [u32; ROOM],
    /// How much of the storage the first wetting takes, in whole percent.
    pub share: u32,
}

/// One reading; the head is kept as its 32 bits.
#[derive(Clone, Copy, Debug, Default, PartialEq, Eq)]
pub struct Reading {
    pub cell: u32,
    pub life: u32,
    pub count: u32,
    pub rain: u32,
    pub irrig: u32,
    pub septic: u32,
    pub etmin: u32,
    pub pet: u32,
    pub amc: u32,
    pub head: u32,
}

/// The turn that a reading or a void claims: its cell, the battery's life and the count in it.
#[derive(Clone, Copy, Debug, Default, PartialEq, Eq)]
pub struct Turn {
    pub cell: u32,
    pub life: u32,
    pub count: u32,
}

/// A void: the notice that no figures come for a turn.
pub type Void = Turn;

/// What a line of a journal after its card says.
#[derive(Clone, Copy, Debug, PartialEq, Eq)]
pub enum Entry {
    Reading(Reading),
    Void(Void),
}

/// The ten amounts of an answer, in micrometres over the cell.
#[derive(Clone, Copy, Debug, Default, PartialEq, Eq)]
pub struct Amounts {
    pub inflow: i64,
    pub runoff: i64,
    pub etvad: i64,
    pub etstor: i64,
    pub etsat: i64,
    pub drain: i64,
    pub release: i64,
    pub stored: i64,
    pub recharge: i64,
    pub left: i64,
}

impl Card {
    /// A card of zeros.
    pub const ZEROS: Card = Card { cells: 0, delays: 0, depths: [0; ROOM], share: 0 };

    /// A card to fill in: nothing on it but the usual share.
    pub const BLANK: Card = Card { share: USUAL_SHARE, ..Card::ZEROS };

    /// The delay depths in use, M of them.
    pub fn used(&self) -> &[u32] {
        &self.depths[..self.delays as usize]
    }

    /// The places for depths not in use.
    pub fn unused(&self) -> &[u32] {
        &self.depths[self.delays as usize..]
    }

    /// Cells and delays within the page's ranges.
    pub fn sized(&self) -> bool {
        (1..=256).contains(&self.cells) && self.delays <= 30
    }

    /// All the card's ranges, the share's too, rising depths, and zeros in unused places.
    pub fn in_range(&self) -> bool {
        self.sized()
            && self.used().iter().all(|d| (1..=1_000_000_000).contains(d))
            && self.used().windows(2).all(|pair| pair[0] < pair[1])
            && self.unused().iter().all(|d| *d == 0)
            && (5..=20).contains(&self.share)
    }
}

impl Reading {
    /// The turn that the reading claims.
    pub fn turn(&self) -> Turn {
        Turn { cell: self.cell, life: self.life, count: self.count }
    }
}

impl Entry {
    /// The turn that the entry claims.
    pub fn turn(&self) -> Turn {
        match self {
            Entry::Reading(reading) => reading.turn(),
            Entry::Void(void) => *void,
        }
    }
}

impl Amounts {
    /// The nine amounts that a sheet sums, in the page's order, recharge last.
    pub fn nine(&self) -> [i64; 9] {
        [
            self.inflow,
            self.runoff,
            self.etvad,
            self.etstor,
            self.etsat,
            self.drain,
            self.release,
            self.stored,
            self.recharge,
        ]
    }
}

/// The five soil numbers of one cell, each in its range.
pub fn soil_in_range(soil: &[i64]) -> bool {
    (-10_000_000_000..=10_000_000_000).contains(&soil[0])
        && (1..=100_000_000).contains(&soil[1])
        && (1..=1000).contains(&soil[2])
        && (0..=1_000_000).contains(&soil[3])
        && (1..=100).contains(&soil[4])
}

/// The most water that slot k may hold under M delays; none above M.
pub fn slot_limit(k: u32, delays: u32) -> u32 {
    if k > delays {
        0
    } else {
        2_000_000 * (delays - k + 1)
    }
}

/// The turn that is due in a row of any form: life and next count in their ranges.
pub fn due_in_range(row: &[u32]) -> bool {
    row[0] <= 65_535 && row[1] <= 1_000_000
}

/// The first 32 stored numbers of one cell, each in its range: all that a row without sums has.
pub fn old_row_in_range(row: &[u32], delays: u32) -> bool {
    due_in_range(row) && (1..=30).all(|k| row[1 + k as usize] <= slot_limit(k, delays))
}

/// The 36 stored numbers of one cell, each in its range.
pub fn row_in_range(row: &[u32], delays: u32) -> bool {
    old_row_in_range(row, delays) && Sums::of(row).in_range()
}

/// Life and count in their ranges.
pub fn turn_in_range(turn: &Turn) -> bool {
    turn.life <= 65_535 && turn.count <= 999_999
}

/// The reading's whole-number fields but the cell number, and etmin against pet.
pub fn fields_in_range(r: &Reading) -> bool {
    let waters = [r.rain, r.irrig, r.septic, r.etmin, r.pet];
    turn_in_range(&r.turn())
        && waters.iter().all(|w| *w <= MOST)
        && r.etmin <= r.pet
        && (1..=3).contains(&r.amc)
}
