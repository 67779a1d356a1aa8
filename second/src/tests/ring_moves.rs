//! Changes of engine: from plain rows to ring rows and back, both sides of each number, and the order of the checks.

use super::{delayed, some_row, starts, turned};
use crate::made::dice::Dice;
use crate::made::entries::next_entry;
use crate::made::site::Site;
use crate::numbers::{slot_limit, Card, RING_ROW, ROW};
use crate::ring::{from_ring, to_ring, START};
use crate::{ring, step};

/// A card with two delays and plain rows for it, each with numbers of its own.
fn site(cells: u32) -> (Card, Vec<u32>) {
    let dice = &mut Dice::new(u64::from(cells));
    (delayed(cells, 2), (0..cells).flat_map(|_| some_row(dice, 2)).collect())
}

/// Ring rows of these plain ones, each with a start of its own.
fn rings(rows: &[u32], delays: u32) -> Vec<u32> {
    let starts = starts(delays).cycle();
    rows.chunks(ROW).zip(starts).flat_map(|(row, start)| turned(row, start, delays)).collect()
}

/// The number of a change to ring rows that must leave the slice alone if it is refused.
fn of_to(card: &Card, rows: &[u32], length: usize) -> u32 {
    let mut ring = vec![77; length];
    let number = to_ring(card, rows, &mut ring);
    assert!(number == 0 || ring == vec![77; length]);
    number
}

/// The number of a change to plain rows that must leave the slice alone if it is refused.
fn of_from(card: &Card, ring: &[u32], length: usize) -> u32 {
    let mut rows = vec![77; length];
    let number = from_ring(card, ring, &mut rows);
    assert!(number == 0 || rows == vec![77; length]);
    number
}

#[test]
fn over_and_back_gives_the_very_rows() {
    for (cells, delays) in [(1, 0), (1, 1), (2, 2), (9, 30), (256, 3)] {
        let (card, dice) = (delayed(cells, delays), &mut Dice::new(5));
        let rows: Vec<u32> = (0..cells).flat_map(|_| some_row(dice, delays)).collect();
        let (mut ring, mut back) = (vec![77; RING_ROW * cells as usize], vec![77; rows.len()]);
        assert_eq!(to_ring(&card, &rows, &mut ring), 0);
        let wanted = rows.chunks(ROW).flat_map(|row| row.iter().chain(&[0]));
        assert!(wanted.eq(&ring));
        assert_eq!(from_ring(&card, &ring, &mut back), 0);
        assert_eq!(back, rows);
    }
}

#[test]
fn each_row_is_read_from_its_own_start() {
    let dice = &mut Dice::new(6);
    for delays in 0..=30 {
        let rows: Vec<u32> = (0..40).flat_map(|_| some_row(dice, delays)).collect();
        let mut read = vec![77; rows.len()];
        assert_eq!(from_ring(&delayed(40, delays), &rings(&rows, delays), &mut read), 0);
        assert_eq!(read, rows);
    }
}

/// Full queues change over, every slot at its limit.
#[test]
fn full_rows_change() {
    for delays in 0..=30 {
        let card = delayed(1, delays);
        let mut row = vec![65_535, 1_000_000];
        row.extend((1..=30).map(|k| slot_limit(k, delays)));
        row.extend([232_830_643, 2_808_348_672].repeat(2));
        assert_eq!(of_to(&card, &row, RING_ROW), 0);
        for start in starts(delays) {
            let mut read = [77; ROW];
            assert_eq!(from_ring(&card, &turned(&row, start, delays), &mut read), 0);
            assert_eq!(read[..], row);
        }
    }
}

#[test]
fn number_2_for_either_slice() {
    let (card, rows) = site(2);
    let ring = rings(&rows, 2);
    let wrong = |right: usize| [0, 1, right - 1, right + 1, 2 * right];
    for length in wrong(2 * ROW) {
        let mut other = rows.clone();
        other.resize(length, 0);
        assert_eq!(of_to(&card, &other, 2 * RING_ROW), 2, "rows {length}");
        assert_eq!(of_from(&card, &ring, length), 2, "rows {length}");
    }
    for length in wrong(2 * RING_ROW) {
        let mut other = ring.clone();
        other.resize(length, 0);
        assert_eq!(of_to(&card, &rows, length), 2, "ring {length}");
        assert_eq!(of_from(&card, &other, 2 * ROW), 2, "ring {length}");
    }
    // Each slice in the other's form.
    assert_eq!(of_to(&card, &ring, 2 * ROW), 2);
    assert_eq!(of_from(&card, &rows, 2 * RING_ROW), 2);
}

#[test]
fn number_5_for_every_row() {
    let (card, rows) = site(3);
    let faults = [(0, 65_536), (1, 1_000_001), (2, 4_000_001), (3, 2_000_001), (4, 1), (31, 1)];
    for row in 0..3 {
        for (place, kept) in faults.into_iter().chain([(32, 232_830_644), (34, u32::MAX)]) {
            let mut bad = rows.clone();
            bad[ROW * row + place] = kept;
            assert_eq!(of_to(&card, &bad, 3 * RING_ROW), 5, "row {row} place {place}");
            assert_eq!(of_from(&card, &rings(&bad, 2), 3 * ROW), 5, "row {row} place {place}");
        }
        for start in [2, 3, 30, u32::MAX] {
            let mut bad = rings(&rows, 2);
            bad[RING_ROW * row + START] = start;
            assert_eq!(of_from(&card, &bad, 3 * ROW), 5, "row {row} start {start}");
        }
    }
}

/// Each fault, put in from the last check to the first, takes over the number.
#[test]
fn the_order_of_the_checks() {
    let (mut card, mut rows) = site(3);
    let mut ring = rings(&rows, 2);
    rows[2 * ROW + 31] = 1;
    ring[2 * RING_ROW + START] = 2;
    let numbers = |card: &Card, less: usize| {
        (of_to(card, &rows, 3 * RING_ROW - less), of_from(card, &ring, 3 * ROW - less))
    };
    assert_eq!(numbers(&card, 0), (5, 5));
    assert_eq!(numbers(&card, 1), (2, 2));
    card.depths[7] = 1;
    assert_eq!(numbers(&card, 1), (1, 1));
}

/// A site that changes its engine again and again keeps its water: the plain engine alone has the same rows.
#[test]
fn steps_in_the_ring_give_the_plain_rows() {
    for seed in 0..40 {
        let dice = &mut Dice::new(seed);
        let mut site = Site::made(dice);
        let cells = site.card.cells as usize;
        let (mut ring, mut rows) = (vec![77; RING_ROW * cells], vec![77; ROW * cells]);
        for _ in 0..10 {
            assert_eq!(to_ring(&site.card, &site.rows, &mut ring), 0);
            for _ in 0..dice.below(40) {
                let entry = next_entry(&site, dice, 12);
                let wanted = step::enter(&site.card, &site.soil, &mut site.rows, &entry);
                assert_eq!(ring::enter(&site.card, &site.soil, &mut ring, &entry), wanted);
            }
            assert_eq!(from_ring(&site.card, &ring, &mut rows), 0);
            assert_eq!(rows, site.rows);
        }
    }
}
