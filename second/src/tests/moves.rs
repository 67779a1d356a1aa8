//! Moves: from rows without sums to rows with them and back, both sides of each number, and the order of the checks.

use super::card;
use crate::numbers::{slot_limit, Card, OLD_ROW, ROW};
use crate::sums::{grow, shrink, Sums};

/// A card with two delays and old rows for it, each with numbers of its own.
fn site(cells: u32) -> (Card, Vec<u32>) {
    let row = |cell: u32| {
        let mut row = [0; OLD_ROW];
        row[..4].copy_from_slice(&[cell, 7 * cell, 1000 + cell, 2_000_000 - cell]);
        row
    };
    (card(cells, &[1_000_000, 2_000_000]), (0..cells).flat_map(row).collect())
}

/// The rows that old ones become.
fn grown(old: &[u32]) -> Vec<u32> {
    old.chunks(OLD_ROW).flat_map(|row| row.iter().copied().chain([0; 4])).collect()
}

/// The number of a move over that must leave the slice alone if it is refused.
fn of_grow(card: &Card, old: &[u32], length: usize) -> u32 {
    let mut rows = vec![77; length];
    let number = grow(card, old, &mut rows);
    assert!(number == 0 || rows == vec![77; length]);
    number
}

/// The number of a move back that must leave the slice alone if it is refused.
fn of_shrink(card: &Card, rows: &[u32], length: usize) -> u32 {
    let mut old = vec![77; length];
    let number = shrink(card, rows, &mut old);
    assert!(number == 0 || old == vec![77; length]);
    number
}

#[test]
fn over_and_back_gives_the_very_rows() {
    for cells in [1, 2, 9, 256] {
        let (card, old) = site(cells);
        let (mut rows, mut back) = (vec![77; ROW * cells as usize], vec![77; old.len()]);
        assert_eq!(grow(&card, &old, &mut rows), 0);
        assert_eq!(rows, grown(&old));
        assert!(rows.chunks(ROW).all(|row| Sums::of(row) == Sums::default()));
        assert_eq!(shrink(&card, &rows, &mut back), 0);
        assert_eq!(back, old);
    }
}

/// A full queue moves over, every slot at its limit.
#[test]
fn full_rows_move() {
    for delays in 0..=30 {
        let depths: Vec<u32> = (1..=delays).collect();
        let mut old = vec![65_535, 1_000_000];
        old.extend((1..=30).map(|k| slot_limit(k, delays)));
        let card = card(1, &depths);
        assert_eq!(of_grow(&card, &old, ROW), 0);
        assert_eq!(of_shrink(&card, &grown(&old), OLD_ROW), 0);
    }
}

#[test]
fn number_2_for_either_slice() {
    let (card, old) = site(2);
    let rows = grown(&old);
    let wrong = |right: usize| [0, 1, right - 1, right + 1, 2 * right];
    for length in wrong(2 * OLD_ROW) {
        let mut other = old.clone();
        other.resize(length, 0);
        assert_eq!(of_grow(&card, &other, 2 * ROW), 2, "old {length}");
        assert_eq!(of_shrink(&card, &rows, length), 2, "old {length}");
    }
    for length in wrong(2 * ROW) {
        let mut other = rows.clone();
        other.resize(length, 0);
        assert_eq!(of_grow(&card, &old, length), 2, "rows {length}");
        assert_eq!(of_shrink(&card, &other, 2 * OLD_ROW), 2, "rows {length}");
    }
    // Each slice in the other's form.
    assert_eq!(of_grow(&card, &rows, 2 * OLD_ROW), 2);
    assert_eq!(of_shrink(&card, &old, 2 * ROW), 2);
}

#[test]
fn number_5_for_every_row() {
    let (card, old) = site(3);
    for row in 0..3 {
        for (place, kept) in [(0, 65_536), (1, 1_000_001), (2, 4_000_001), (3, 2_000_001), (4, 1)] {
            let mut bad = old.clone();
            bad[OLD_ROW * row + place] = kept;
            assert_eq!(of_grow(&card, &bad, 3 * ROW), 5, "row {row} place {place}");
            assert_eq!(of_shrink(&card, &grown(&bad), 3 * OLD_ROW), 5, "row {row} place {place}");
        }
        for place in [32, 34] {
            let mut bad = grown(&old);
            bad[ROW * row + place] = 232_830_644;
            assert_eq!(of_shrink(&card, &bad, 3 * OLD_ROW), 5, "row {row} place {place}");
        }
    }
}

/// Any sum in the site that isn't 0, by its high or by its low number, keeps it from going back.
#[test]
fn number_16() {
    let (card, old) = site(3);
    for place in (0..3).flat_map(|row| (32..36).map(move |place| ROW * row + place)) {
        let mut rows = grown(&old);
        rows[place] = 1;
        assert_eq!(of_shrink(&card, &rows, 3 * OLD_ROW), 16, "place {place}");
    }
}

/// Each fault, put in from the last check to the first, takes over the number.
#[test]
fn the_order_of_the_checks() {
    let (mut card, mut old) = site(3);
    let mut rows = grown(&old);
    rows[33] = 1;
    assert_eq!(of_shrink(&card, &rows, 3 * OLD_ROW), 16);
    // A row out of range behind one with a sum that isn't 0.
    rows[2 * ROW + 31] = 1;
    old[2 * OLD_ROW + 31] = 1;
    assert_eq!((of_grow(&card, &old, 3 * ROW), of_shrink(&card, &rows, 3 * OLD_ROW)), (5, 5));
    let one_less = (of_grow(&card, &old, 3 * ROW - 1), of_shrink(&card, &rows, 3 * OLD_ROW - 1));
    assert_eq!(one_less, (2, 2));
    card.depths[7] = 1;
    let one_less = (of_grow(&card, &old, 3 * ROW - 1), of_shrink(&card, &rows, 3 * OLD_ROW - 1));
    assert_eq!(one_less, (1, 1));
}
