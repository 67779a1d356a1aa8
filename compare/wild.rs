//! Wild numbers: cards, soil numbers, rows, readings and voids at the edges of their ranges and beyond.

use crate::branches::{first_loss, rain_at_the_edge};
use crate::heads;
use crate::waterbook::{OLD_ROW, ROW, SHARE_AT};
use second::made::dice::Dice;
use second::made::sums::made_sums;
use second::numbers::slot_limit;
use second::sums::{MOST_SUMMED, Sums};
use std::sync::OnceLock;

/// Any 32-bit number, small ones and edges as often as large ones.
pub fn any(dice: &mut Dice) -> u32 {
    let edge = dice.pick(&[0, 1, 2, 3, 30, 31, 256, 65_536, 1_000_000, 1 << 31, u32::MAX]);
    let some = (dice.roll() as u32) >> dice.below(32);
    if dice.once_in(3) { edge } else { some }
}

/// Any signed 64-bit number, small ones and edges as often as large ones.
pub fn any_signed(dice: &mut Dice) -> i64 {
    let edge = dice.pick(&[0, 1, -1, i64::MAX, i64::MIN, i64::MAX - 1, i64::MIN + 1]);
    let some = (dice.roll() as i64) >> dice.below(64);
    let thirty = 30_000_000_000 + dice.within(-1, 1);
    match dice.below(4) {
        0 => edge,
        1 => dice.pick(&[thirty, -thirty, 4_294_967_295, 4_294_967_296, 100_000_000, 99_999_999]),
        _ => some,
    }
}

/// Any share: near its range mostly.
pub fn share(dice: &mut Dice) -> u32 {
    let (near, any) = (dice.below(26) as u32, any(dice));
    dice.pick(&[near, near, near, 4, 5, 20, 21, any])
}

/// One thing done to the numbers of a card in order.
pub fn card(dice: &mut Dice, card: &mut [u32]) {
    let last = 1 + card[1].min(30) as usize;
    let any_place = dice.place(card.len());
    match dice.below(14) {
        0 => card[0] = dice.pick(&[0, 257, 1 << 31, u32::MAX]),
        1 => card[0] = card[0].wrapping_add(dice.pick(&[1, u32::MAX])),
        2 => card[1] = dice.pick(&[31, 32, 255, 1 << 31, u32::MAX]),
        3 => card[1] = card[1].wrapping_add(dice.pick(&[1, u32::MAX])),
        4 if last + 1 < SHARE_AT => {
            card[dice.within(last as i64 + 1, SHARE_AT as i64 - 1) as usize] = 1 + any(dice) / 2
        }
        5 if last > 1 => card[2] = 0,
        6 if last > 1 => card[last] = dice.pick(&[1_000_000_000, 1_000_000_001, u32::MAX]),
        7 if last > 2 => card[last] = card[last - 1],
        8 if last > 2 => card.swap(last, last - 1),
        9 if last > 2 => card[last - 1] = card[last].wrapping_add(1),
        10 if last > 1 => card[dice.within(2, last as i64) as usize] = any(dice),
        11 | 12 => card[SHARE_AT] = share(dice),
        _ => card[any_place] = any(dice),
    }
}

/// A soil number of a cell put at an edge of its range or beyond.
pub fn soil(dice: &mut Dice, plot: &mut [i64]) {
    const RANGES: [(i64, i64); 5] =
        [(-10_000_000_000, 10_000_000_000), (1, 100_000_000), (1, 1000), (0, 1_000_000), (1, 100)];
    let which = dice.place(plot.len().min(5));
    let (low, high) = RANGES[which];
    let any = any_signed(dice);
    plot[which] = dice.pick(&[low, high, low - 1, high + 1, any]);
}

/// A row in range: slots from empty to full, sums half of the time.
pub fn fair_row(dice: &mut Dice, row: &mut [u32], delays: u32) {
    row[0] = dice.pick(&[0, 0, 0, 3, 65_534, 65_535]);
    row[1] = dice.pick(&[0, 0, 1, 7, 999_998, 999_999, 1_000_000]);
    let fullness = dice.below(4);
    for k in 1..=delays {
        let limit = u64::from(slot_limit(k, delays));
        row[1 + k as usize] = match fullness {
            0 => 0,
            1 => limit as u32,
            2 => dice.below(limit + 1) as u32,
            _ => dice.below(3000) as u32,
        };
    }
    let sums = if dice.once_in(2) { made_sums(dice) } else { Sums::default() };
    sums.write(row);
}

/// Rows in range.
pub fn fair_rows(dice: &mut Dice, rows: &mut [u32], delays: u32) {
    rows.chunks_mut(ROW).for_each(|row| fair_row(dice, row, delays));
}

/// A sum of a row, by its high and low number, put at 10^18, beside it or far beyond.
fn sum(dice: &mut Dice, two: &mut [u32]) {
    let any = [any(dice), any(dice)];
    let (high, low) = ((MOST_SUMMED >> 32) as u32, MOST_SUMMED as u32);
    let near = [[high, low], [high, low + 1], [high, low - 1], [high, u32::MAX], [high + 1, 0]];
    let beside = dice.pick(&near);
    two.copy_from_slice(&dice.pick(&[beside, beside, [high - 1, u32::MAX], [u32::MAX; 2], any]));
}

/// A number of a row, with sums or without, put at its limit or beyond.
pub fn row(dice: &mut Dice, row: &mut [u32], delays: u32) {
    if row.len() > OLD_ROW && dice.once_in(3) {
        let place = OLD_ROW + dice.pick(&[0, 2]);
        return sum(dice, &mut row[place..place + 2]);
    }
    let any = any(dice);
    let k = 1 + dice.below(30) as u32;
    let limit = slot_limit(k, delays.min(30));
    match dice.below(5) {
        0 => row[0] = dice.pick(&[65_535, 65_536, u32::MAX, any]),
        1 => row[1] = dice.pick(&[999_999, 1_000_000, 1_000_001, u32::MAX, any]),
        _ => row[1 + k as usize] = dice.pick(&[limit, limit + 1, limit + 1, u32::MAX, any]),
    }
}

/// A number of a turn put at an edge or beyond: cell, life or count.
pub fn turn(dice: &mut Dice, turn: &mut [u32]) {
    let any = any(dice);
    match dice.below(3) {
        0 => turn[0] = dice.pick(&[0, 1, 255, 256, u32::MAX, any]),
        1 => turn[1] = dice.pick(&[0, 1, 65_535, 65_536, u32::MAX, any]),
        _ => turn[2] = dice.pick(&[0, 1, 999_999, 1_000_000, u32::MAX, any]),
    }
}

/// The rain at which the storm's runoff starts, for a curve number and a share; the nearest share where that is none.
fn edge_of(c: i64, share: u32) -> i64 {
    static EDGES: OnceLock<Vec<i64>> = OnceLock::new();
    let shares = || (5..=20).flat_map(|r| (1..=100).map(move |c| rain_at_the_edge(c, r)));
    let edges = EDGES.get_or_init(|| shares().collect());
    edges[100 * (share.clamp(5, 20) as usize - 5) + c as usize - 1]
}

/// A field of a reading put at an edge or beyond; the soil's curve number and the card's share set the rain's edges.
pub fn reading(dice: &mut Dice, reading: &mut [u32], cn: i64, share: u32) {
    let edges = [600_000, 600_001, 999_999, 1_000_000, 1_000_001, u32::MAX];
    let (edge, any) = (dice.pick(&edges), any(dice));
    match dice.below(13) {
        0..=2 => turn(dice, &mut reading[..3]),
        3..=7 => reading[dice.within(3, 7) as usize] = edge,
        8 => reading[6] = reading[7].wrapping_add(dice.below(2) as u32),
        9 => reading[8] = dice.pick(&[0, 1, 2, 3, 4, u32::MAX, any]),
        10 if (1..=100).contains(&cn) => {
            let edges = [edge_of(cn, share), first_loss(cn, share.into())];
            reading[3] = (dice.pick(&edges) + dice.within(-2, 1)).max(0) as u32;
            reading[8] = 2;
        }
        11 => reading[dice.place(10)] = any,
        _ => reading[9] = heads::made(dice),
    }
}

/// Any unsigned 64-bit number, small ones and edges as often as large ones.
pub fn any_sum(dice: &mut Dice) -> u64 {
    let some = dice.roll() >> dice.below(64);
    dice.pick(&[some, some, 0, 1, MOST_SUMMED, u64::MAX])
}

/// Another length than the right one.
pub fn other_length(dice: &mut Dice, right: usize, stride: usize) -> usize {
    let lengths =
        [0, 1, right.saturating_sub(1), right + 1, right.saturating_sub(stride), right + stride];
    let some = dice.place(2 * right + 2);
    dice.pick(&lengths).max(usize::from(dice.once_in(9)) * some)
}
