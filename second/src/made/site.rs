//! Made sites: a card, soil numbers, and heads that lie near the tops.

use super::dice::Dice;
use crate::head::micrometres;
use crate::numbers::{Card, ROW, SOIL, USUAL_SHARE};
use std::collections::BTreeSet;

/// Heads with something special about them, usable or not.
pub const HEADS: [u32; 26] = [
    0x0000_0000,
    0x8000_0000,
    0x0000_0001,
    0x8000_0001,
    0x007f_ffff,
    0x807f_ffff,
    0x0080_0000,
    0x8080_0000,
    0x461c_4000,
    0xc61c_4000,
    0x461c_3fff,
    0xc61c_3fff,
    0x461c_4001,
    0xc61c_4001,
    0x7149_f2ca,
    0xf149_f2ca,
    0x7149_f2c9,
    0x7149_f2cb,
    0xf149_f2c9,
    0xf149_f2cb,
    0x7f80_0000,
    0xff80_0000,
    0x7fc0_0000,
    0xffc0_0000,
    0x7f80_0001,
    0xffff_ffff,
];

/// Heads whose levels are whole at their edge: zeros, least sizes, ten thousand metres.
const EDGE_LEVELS: [u32; 8] = [
    0x0000_0000,
    0x8000_0000,
    0x0000_0001,
    0x8000_0001,
    0x461c_4000,
    0xc61c_4000,
    0x358637bd,
    0xb58637bd,
];

/// A site with its stored rows, so that readings can take their turns.
#[derive(Clone, Debug)]
pub struct Site {
    pub card: Card,
    pub soil: Vec<i64>,
    pub rows: Vec<u32>,
    /// The usual head of each cell.
    pub usual: Vec<u32>,
}

impl Site {
    /// A site in order.
    pub fn made(dice: &mut Dice) -> Site {
        let card = made_card(dice);
        let cells = card.cells as usize;
        let mut site =
            Site { card, soil: Vec::new(), rows: vec![0; ROW * cells], usual: Vec::new() };
        for _ in 0..cells {
            let usual = usual_head(dice);
            site.soil.extend(made_soil(dice, &card, usual));
            site.usual.push(usual);
        }
        site
    }

    /// Put a fault into the card's share or its depths.
    pub fn foul_card(&mut self, dice: &mut Dice) {
        if dice.once_in(2) {
            self.card.share = foul_share(dice);
            return;
        }
        if self.card.delays == 0 {
            self.card.delays = 1;
            self.card.depths[0] = 1000;
        }
        let place = dice.place(self.card.delays as usize);
        let last = self.card.delays as usize - 1;
        match dice.below(5) {
            0 => self.card.depths[place] = 0,
            1 => self.card.depths[last] = 1_000_000_001,
            2 => self.card.depths[last] = u32::MAX,
            3 if last > 0 => self.card.depths[last] = self.card.depths[last - 1],
            4 if last > 0 => self.card.depths.swap(last - 1, last),
            _ => self.card.depths[0] = 0,
        }
    }

    /// Put a soil number of some cell out of its range.
    pub fn foul_soil(&mut self, dice: &mut Dice) {
        let cell = dice.place(self.card.cells as usize);
        let which = dice.place(SOIL);
        let most = i64::from(u32::MAX);
        let ten = 10_000_000_001;
        self.soil[SOIL * cell + which] = match which {
            0 => dice.pick(&[-ten, ten, i64::MIN, i64::MAX]),
            1 => dice.pick(&[0, 100_000_001, most]),
            2 => dice.pick(&[0, 1001, most]),
            3 => dice.pick(&[1_000_001, most]),
            _ => dice.pick(&[0, 101, most]),
        };
    }
}

/// A card in range: few cells mostly, any number of delays.
fn made_card(dice: &mut Dice) -> Card {
    let cells = match dice.below(50) {
        0 => 256,
        1 => dice.within(41, 255),
        2..=5 => dice.within(9, 40),
        _ => dice.within(1, 8),
    };
    let some = dice.within(0, 30);
    let delays = dice.pick(&[0, 1, 2, 3, 5, 29, 30, some, some, some]);
    let share = made_share(dice);
    let mut card = Card { cells: cells as u32, delays: delays as u32, share, ..Card::BLANK };
    for (place, depth) in made_depths(dice, delays as usize).into_iter().enumerate() {
        card.depths[place] = depth;
    }
    card
}

/// A share in range: the usual one half of the time, the least often enough.
pub fn made_share(dice: &mut Dice) -> u32 {
    let some = dice.within(5, 20) as u32;
    dice.pick(&[USUAL_SHARE, USUAL_SHARE, USUAL_SHARE, USUAL_SHARE, 5, some, some, some])
}

/// A share out of range: just below or above it mostly, or one that looks right in fewer bits.
fn foul_share(dice: &mut Dice) -> u32 {
    let (below, above) = (dice.below(5) as u32, 21 + dice.below(5) as u32);
    let far = dice.pick(&[100, 256 + 20, 65_536 + 5, 1 << 31, (1 << 31) + 10, u32::MAX]);
    dice.pick(&[below, below, above, above, far])
}

/// So many rising delay depths, close together or far apart.
fn made_depths(dice: &mut Dice, delays: usize) -> BTreeSet<u32> {
    let deepest = dice.pick(&[30, 60, 5_000, 400_000, 3_000_000, 100_000_000, 1_000_000_000]);
    let mut depths = BTreeSet::new();
    if delays > 0 && dice.once_in(4) {
        depths.insert(1);
    }
    if delays > 1 && dice.once_in(4) {
        depths.insert(1_000_000_000);
    }
    while depths.len() < delays {
        depths.insert(dice.within(1, deepest) as u32);
    }
    depths
}

/// The usual head of a cell: always a level.
fn usual_head(dice: &mut Dice) -> u32 {
    let sign = (dice.below(2) as u32) << 31;
    let fraction = dice.below(0x0080_0000) as u32;
    match dice.below(8) {
        0 => dice.pick(&EDGE_LEVELS),
        // Sizes below a metre, where levels lie close together.
        1..=3 => sign | (dice.within(104, 126) as u32) << 23 | fraction,
        // A metre to 16 metres.
        4 | 5 => sign | (dice.within(127, 130) as u32) << 23 | fraction,
        // Up to 8192 metres.
        _ => sign | (dice.within(131, 139) as u32) << 23 | fraction,
    }
}

/// The five soil numbers of a cell, the top set by the depth wanted at the usual head.
fn made_soil(dice: &mut Dice, card: &Card, usual: u32) -> [i64; SOIL] {
    let some_depth = dice.within(1, 3_000_000);
    let etdepth = dice.pick(&[1, 2, 1000, 1_500_000, 99_999_999, 100_000_000, some_depth]);
    let some_pores = dice.within(1, 1000);
    let vadpor = dice.pick(&[1, 2, 200, 999, 1000, some_pores, some_pores]);
    let some_leak = dice.within(0, 1_000_000);
    let leak = dice.pick(&[0, 1, 100_000, 999_999, 1_000_000, some_leak, some_leak]);
    let some_number = dice.within(1, 100);
    let cn = dice.pick(&[1, 2, 80, 99, 100, some_number, some_number, some_number]);
    let depth = wanted_depth(dice, card, etdepth);
    let top = micrometres(usual) + depth;
    [top.clamp(-10_000_000_000, 10_000_000_000), etdepth, vadpor, leak, cn]
}

/// A depth worth meeting: at the top, at a delay depth, at etdepth, or anywhere.
pub fn wanted_depth(dice: &mut Dice, card: &Card, etdepth: i64) -> i64 {
    let beside = dice.within(-1, 1);
    match dice.below(8) {
        0 => beside,
        1 | 2 if card.delays > 0 => i64::from(dice.pick(card.used())) + beside,
        3 => etdepth + beside,
        4 => dice.within(-1_000_000, 0),
        5 => dice.within(1, 20_000),
        6 => dice.within(-20_000_000_000, 20_000_000_000),
        _ => dice.within(1, 4_000_000),
    }
}
