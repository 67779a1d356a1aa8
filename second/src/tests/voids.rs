//! Voids: which turns they may use up, what they do to the queue, and the checks that they pass.

use super::{card, example, PLOT};
use crate::numbers::{slot_limit, Amounts, Card, Reading, Void, OLD_ROW, ROW};
use crate::step::{step, void};

/// The number of a void that must leave the rows alone if it is refused.
fn number(card: &Card, soil: &[i64], rows: &[u32], notice: Void) -> u32 {
    let mut after = rows.to_vec();
    let (number, amounts) = void(card, soil, &mut after, &notice);
    if number != 0 {
        assert_eq!(after, rows);
        assert_eq!(amounts, Amounts::default());
    }
    number
}

/// A void of cell 0.
fn of(life: u32, count: u32) -> Void {
    Void { cell: 0, life, count }
}

/// The amounts of an accepted void.
fn released(release: i64, left: i64) -> Amounts {
    Amounts { release, recharge: release, left, ..Amounts::default() }
}

/// A card of one cell with so many delays, and a row with each slot at its limit.
fn full(delays: u32) -> (Card, [u32; ROW]) {
    let depths: Vec<u32> = (1..=delays).collect();
    let mut rows = [0; ROW];
    for k in 1..=delays {
        rows[1 + k as usize] = slot_limit(k, delays);
    }
    (card(1, &depths), rows)
}

#[test]
fn a_full_queue_of_3() {
    let (site, mut rows) = full(3);
    assert_eq!(rows[2..5], [6_000_000, 4_000_000, 2_000_000]);
    let days = [(6_000_000, 6_000_000), (4_000_000, 2_000_000), (2_000_000, 0), (0, 0)];
    for (count, (release, left)) in days.into_iter().enumerate() {
        let answer = void(&site, &PLOT, &mut rows, &of(0, count as u32));
        assert_eq!(answer, (0, released(release, left)));
        assert_eq!(rows[..2], [0, count as u32 + 1]);
    }
    assert_eq!(rows[2..], [0; 34]);
}

#[test]
fn the_slots_move_up_by_one() {
    let (site, mut rows) = full(3);
    rows[2..5].copy_from_slice(&[100, 700, 5000]);
    assert_eq!(void(&site, &PLOT, &mut rows, &of(0, 0)), (0, released(100, 5700)));
    assert_eq!(rows[..6], [0, 1, 700, 5000, 0, 0]);
}

#[test]
fn no_delays() {
    let (site, mut rows) = full(0);
    assert_eq!(void(&site, &PLOT, &mut rows, &of(0, 0)), (0, released(0, 0)));
    assert_eq!((rows[..2].to_vec(), rows[2..].to_vec()), (vec![0, 1], vec![0; 34]));
}

#[test]
fn a_full_queue_of_30() {
    let (site, mut rows) = full(30);
    let waits = |rows: &[u32]| rows[2..OLD_ROW].iter().map(|slot| i64::from(*slot)).sum::<i64>();
    assert_eq!(waits(&rows), 930_000_000);
    for count in 0..30 {
        let (due, before) = (i64::from(rows[2]), waits(&rows));
        let answer = void(&site, &PLOT, &mut rows, &of(0, count));
        assert_eq!(answer, (0, released(due, before - due)));
        assert_eq!(due, i64::from(slot_limit(count + 1, 30)));
    }
    assert_eq!((rows[1], waits(&rows)), (30, 0));
}

#[test]
fn the_first_entry() {
    let (site, mut rows) = (card(1, &[1_000_000, 2_000_000]), [0; ROW]);
    assert_eq!(void(&site, &PLOT, &mut rows, &of(0, 0)), (0, released(0, 0)));
    let second = Reading { count: 1, ..example() };
    assert_eq!(step(&site, &PLOT, &mut rows, &second).0, 0);
    assert_eq!(rows[..3], [0, 2, 34_513]);
}

#[test]
fn repeated_or_after_a_gap() {
    let (site, mut rows) = full(3);
    assert_eq!(number(&site, &PLOT, &rows, of(0, 1)), 7);
    assert_eq!(void(&site, &PLOT, &mut rows, &of(0, 0)).0, 0);
    assert_eq!(number(&site, &PLOT, &rows, of(0, 0)), 6);
    assert_eq!(step(&site, &PLOT, &mut rows, &example()).0, 6);
    assert_eq!(number(&site, &PLOT, &rows, of(0, 2)), 7);
    assert_eq!(number(&site, &PLOT, &rows, of(0, 1)), 0);
}

#[test]
fn turns_as_a_readings() {
    let (site, mut rows) = full(0);
    (rows[0], rows[1]) = (3, 7);
    let turns = [(3, 6), (3, 7), (3, 8), (5, 1), (5, 0), (2, 900), (u32::MAX, 0), (u32::MAX, 1)];
    let numbers = turns.map(|(life, count)| number(&site, &PLOT, &rows, of(life, count)));
    assert_eq!(numbers, [6, 0, 7, 7, 0, 6, 8, 7]);
    assert_eq!(number(&site, &PLOT, &rows, of(3, u32::MAX)), 7);
}

#[test]
fn the_last_count_of_a_life() {
    let (site, mut rows) = full(3);
    (rows[0], rows[1]) = (4, 999_999);
    assert_eq!(void(&site, &PLOT, &mut rows, &of(4, 999_999)).0, 0);
    assert_eq!(rows[..3], [4, 1_000_000, 4_000_000]);
    assert_eq!(number(&site, &PLOT, &rows, of(4, 1_000_000)), 8);
    assert_eq!(number(&site, &PLOT, &rows, of(4, 999_999)), 6);
    assert_eq!(void(&site, &PLOT, &mut rows, &of(5, 0)).0, 0);
    assert_eq!(rows[..3], [5, 1, 2_000_000]);
}

#[test]
fn a_new_life() {
    let (site, rows) = full(3);
    let lives = [1, 65_535, 65_536, u32::MAX];
    assert_eq!(lives.map(|life| number(&site, &PLOT, &rows, of(life, 0))), [0, 0, 8, 8]);
    assert_eq!(lives.map(|life| number(&site, &PLOT, &rows, of(life, 1))), [7, 7, 7, 7]);
}

/// Each fault, put in from the last check to the first, takes over the number.
#[test]
fn the_order_of_the_checks() {
    let (mut site, mut soil, mut rows) = (card(2, &[5]), [PLOT, PLOT].concat(), vec![0; 72]);
    (rows[ROW], rows[ROW + 1]) = (3, 1_000_000);
    let mut notice = Void { cell: 1, life: 3, count: 1_000_000 };
    assert_eq!(number(&site, &soil, &rows, notice), 8);
    notice.count += 1;
    assert_eq!(number(&site, &soil, &rows, notice), 7);
    notice.life = 2;
    assert_eq!(number(&site, &soil, &rows, notice), 6);
    rows[ROW + 31] = 1;
    assert_eq!(number(&site, &soil, &rows, notice), 5);
    soil[9] = 0;
    assert_eq!(number(&site, &soil, &rows, notice), 4);
    notice.cell = 2;
    assert_eq!(number(&site, &soil, &rows, notice), 3);
    rows.pop();
    assert_eq!(number(&site, &soil, &rows, notice), 2);
    site.depths[7] = 1;
    assert_eq!(number(&site, &soil, &rows, notice), 1);
}

#[test]
fn slices_and_cells_out() {
    let (site, rows) = full(3);
    assert_eq!(number(&site, &PLOT[..4], &rows, of(0, 0)), 2);
    assert_eq!(number(&site, &PLOT, &rows[..ROW - 1], of(0, 0)), 2);
    for cell in [1, 256, u32::MAX] {
        assert_eq!(number(&site, &PLOT, &rows, Void { cell, life: 0, count: 0 }), 3);
    }
}

#[test]
fn a_bad_row() {
    let (site, rows) = full(3);
    let slots = [(0, 65_536), (1, 1_000_001), (2, 6_000_001), (5, 1), (31, u32::MAX)];
    for (place, kept) in slots.into_iter().chain([(32, 232_830_644), (34, u32::MAX)]) {
        let mut bad = rows;
        bad[place] = kept;
        assert_eq!(number(&site, &PLOT, &bad, of(0, 0)), 5, "place {place}");
    }
}

#[test]
fn only_the_named_row_changes_or_counts() {
    let site = card(3, &[1]);
    let soil = [[0; 5], PLOT, [0; 5]].concat();
    let mut rows = vec![u32::MAX; 3 * ROW];
    rows[ROW..2 * ROW].fill(0);
    rows[ROW + 2] = 9;
    let notice = Void { cell: 1, life: 0, count: 0 };
    assert_eq!(void(&site, &soil, &mut rows, &notice), (0, released(9, 0)));
    assert_eq!(rows[ROW..ROW + 3], [0, 1, 0]);
    assert!(rows[..ROW].iter().chain(&rows[2 * ROW..]).all(|kept| *kept == u32::MAX));
}

#[test]
fn a_refused_reading_leaves_its_count_to_a_void() {
    let (site, mut rows) = (card(1, &[]), [0; ROW]);
    for wrong in [Reading { amc: 9, ..example() }, Reading { head: u32::MAX, ..example() }] {
        assert_ne!(step(&site, &PLOT, &mut rows, &wrong).0, 0);
    }
    assert_eq!(void(&site, &PLOT, &mut rows, &of(0, 0)).0, 0);
    assert_eq!(step(&site, &PLOT, &mut rows, &example()).0, 6);
}
