//! Over ring rows: each refusal number that asks for something else, the order of the checks, clearing and collecting.

use super::{card, delayed, example, starts, turned, PLOT};
use crate::numbers::{slot_limit, Amounts, Card, Reading, Void, OLD_ROW, RING_ROW, ROW};
use crate::ring::{clear, collect, from_ring, ring_row_in_range, step, void, START};
use crate::sums::{Sums, MOST_SUMMED};

/// The number of a reading that must leave the rows alone if it is refused.
fn of_step(card: &Card, soil: &[i64], rows: &[u32], reading: &Reading) -> u32 {
    let mut after = rows.to_vec();
    let (number, amounts) = step(card, soil, &mut after, reading);
    assert!(number == 0 || (after == rows && amounts == Amounts::default()));
    number
}

/// The number of a void that must leave the rows alone if it is refused.
fn of_void(card: &Card, soil: &[i64], rows: &[u32], notice: &Void) -> u32 {
    let mut after = rows.to_vec();
    let (number, amounts) = void(card, soil, &mut after, notice);
    assert!(number == 0 || (after == rows && amounts == Amounts::default()));
    number
}

/// The number of a collection that must change nothing and give zeros if it is refused.
fn of_collect(card: &Card, rows: &[u32], cell: u32) -> u32 {
    let mut after = rows.to_vec();
    let (number, taken) = collect(card, &mut after, cell);
    assert!(number == 0 || (after == rows && taken == Sums::default()));
    number
}

/// Is this row of one cell refused, with 5 by every call that looks at it?
fn bad(delays: u32, row: &[u32; RING_ROW]) -> bool {
    let (site, mut plain) = (delayed(1, delays), [7; ROW]);
    let (life, count) = (row[0], row[1]);
    let reading = Reading { life, count, rain: 0, ..example() };
    let numbers = [
        of_step(&site, &PLOT, row, &reading),
        of_void(&site, &PLOT, row, &Void { cell: 0, life, count }),
        of_collect(&site, row, 0),
        from_ring(&site, row, &mut plain),
    ];
    let in_range = ring_row_in_range(row, delays);
    assert_eq!(numbers, if in_range { [0; 4] } else { [5; 4] }, "{delays} {row:?}");
    !in_range
}

/// A ring row of zeros but for one number and the start.
fn row_with(place: usize, kept: u32, start: u32) -> [u32; RING_ROW] {
    let mut row = [0; RING_ROW];
    row[START] = start;
    row[place] = kept;
    row
}

#[test]
fn number_5_for_the_start() {
    let of = |delays, start| bad(delays, &row_with(START, start, start));
    assert_eq!([0, 1, 2, 30, u32::MAX].map(|start| of(0, start)), [false, true, true, true, true]);
    assert_eq!([0, 1, 2, 30, u32::MAX].map(|start| of(1, start)), [false, true, true, true, true]);
    assert_eq!([0, 1, 2, 3, u32::MAX].map(|start| of(2, start)), [false, false, true, true, true]);
    assert_eq!([0, 1, 28, 29].map(|start| of(30, start)), [false; 4]);
    assert_eq!([30, 31, 36, 256, 1 << 16, 1 << 31, u32::MAX].map(|start| of(30, start)), [true; 7]);
}

#[test]
fn number_5_for_every_start() {
    for delays in 0..=30 {
        let numbers = (0..40).map(|start| bad(delays, &row_with(START, start, start)));
        assert!(numbers.eq((0..40).map(|start| !starts(delays).contains(&start))), "{delays}");
    }
}

/// Slot k of M at most 2,000,000 x (M - k + 1), wherever it stands; nothing above M.
#[test]
fn number_5_for_the_slots() {
    for delays in [0, 1, 2, 3, 30] {
        for start in starts(delays) {
            for k in 1..=delays {
                let place = 2 + ((start + k - 1) % delays) as usize;
                let of = |kept| bad(delays, &row_with(place, kept, start));
                let limit = 2_000_000 * (delays - k + 1);
                assert_eq!([limit, limit + 1].map(of), [false, true], "slot {k} of {delays}");
            }
            for place in 2 + delays as usize..OLD_ROW {
                assert!(bad(delays, &row_with(place, 1, start)), "place {place} of {delays}");
            }
        }
    }
}

/// Every slot at its limit at once: in range at the start that the row was made for, and at no other.
#[test]
fn a_full_ring_has_one_start() {
    for delays in 1..=30 {
        let mut full = [0; ROW];
        for k in 1..=delays {
            full[1 + k as usize] = slot_limit(k, delays);
        }
        for start in starts(delays) {
            let mut row = turned(&full, start, delays);
            for other in starts(delays) {
                row[START] = other;
                assert_eq!(bad(delays, &row), other != start, "{delays} {start} {other}");
            }
        }
    }
}

#[test]
fn number_5_for_what_a_plain_row_has_too() {
    let of = |place, kept| bad(2, &row_with(place, kept, 1));
    assert_eq!([65_535, 65_536].map(|life| of(0, life)), [false, true]);
    assert_eq!([999_999, 1_000_001].map(|next| of(1, next)), [false, true]);
    for place in [32, 34] {
        assert_eq!([232_830_643, 232_830_644].map(|high| of(place, high)), [false, true]);
    }
    // 8 and no longer 5: the last count of a life was used.
    let (site, row) = (delayed(1, 2), row_with(1, 1_000_000, 1));
    assert_eq!(of_step(&site, &PLOT, &row, &Reading { count: 1_000_000, ..example() }), 8);
    assert_eq!(of_void(&site, &PLOT, &row, &Void { cell: 0, life: 0, count: 1_000_000 }), 8);
}

#[test]
fn number_2() {
    for cells in [1u32, 2, 36, 37] {
        let (site, soil) = (delayed(cells, 2), PLOT.repeat(cells as usize));
        let right = RING_ROW * cells as usize;
        for length in [0, 1, right - 1, right, right + 1, ROW * cells as usize, 2 * right] {
            let (mut rows, wanted) = (vec![0; length], if length == right { 0 } else { 2 });
            assert_eq!(of_step(&site, &soil, &rows, &example()), wanted);
            assert_eq!(of_void(&site, &soil, &rows, &Void::default()), wanted);
            assert_eq!(of_collect(&site, &rows, 0), wanted);
            assert_eq!(clear(&site, &mut rows), wanted);
        }
        let rows = vec![0; right];
        assert_eq!(of_step(&site, &soil[1..], &rows, &example()), 2);
        assert_eq!(of_void(&site, &soil[1..], &rows, &Void::default()), 2);
    }
}

#[test]
fn clearing() {
    let mut rows = [7; 2 * RING_ROW];
    assert_eq!(clear(&card(1, &[]), &mut rows), 2);
    assert_eq!(clear(&card(2, &[0]), &mut rows), 1);
    assert_eq!(rows, [7; 2 * RING_ROW]);
    assert_eq!(clear(&card(2, &[]), &mut rows), 0);
    assert_eq!(rows, [0; 2 * RING_ROW]);
}

/// Each fault, put in from the last check to the first, takes over the number.
#[test]
fn the_order_of_the_checks() {
    let (mut site, mut soil) = (card(2, &[5]), [PLOT, PLOT].concat());
    let mut rows = vec![0; 2 * RING_ROW];
    (rows[RING_ROW], rows[RING_ROW + 1]) = (3, 7);
    let mut reading = Reading { cell: 1, life: 3, count: 7, ..example() };
    assert_eq!(of_step(&site, &soil, &rows, &reading), 0);
    rows[RING_ROW + 32..][..2].copy_from_slice(&[232_830_643, 2_808_348_672]);
    assert_eq!(of_step(&site, &soil, &rows, &reading), 15);
    reading.head = 0x7149_f2ca;
    assert_eq!(of_step(&site, &soil, &rows, &reading), 10);
    reading.head = 0x7fc0_0000;
    assert_eq!(of_step(&site, &soil, &rows, &reading), 9);
    reading.rain = 1_000_000;
    assert_eq!(of_step(&site, &soil, &rows, &reading), 17);
    reading.amc = 0;
    assert_eq!(of_step(&site, &soil, &rows, &reading), 8);
    reading.count = 8;
    assert_eq!(of_step(&site, &soil, &rows, &reading), 7);
    reading.life = 2;
    assert_eq!(of_step(&site, &soil, &rows, &reading), 6);
    rows[RING_ROW + START] = 1;
    assert_eq!(of_step(&site, &soil, &rows, &reading), 5);
    soil[9] = 0;
    assert_eq!(of_step(&site, &soil, &rows, &reading), 4);
    reading.cell = 2;
    assert_eq!(of_step(&site, &soil, &rows, &reading), 3);
    rows.pop();
    assert_eq!(of_step(&site, &soil, &rows, &reading), 2);
    site.depths[7] = 1;
    assert_eq!(of_step(&site, &soil, &rows, &reading), 1);
}

#[test]
fn the_order_of_the_checks_of_a_void() {
    let (mut site, mut soil) = (card(2, &[5]), [PLOT, PLOT].concat());
    let mut rows = vec![0; 2 * RING_ROW];
    (rows[RING_ROW], rows[RING_ROW + 1]) = (3, 1_000_000);
    let mut notice = Void { cell: 1, life: 3, count: 1_000_000 };
    assert_eq!(of_void(&site, &soil, &rows, &notice), 8);
    notice.count += 1;
    assert_eq!(of_void(&site, &soil, &rows, &notice), 7);
    notice.life = 2;
    assert_eq!(of_void(&site, &soil, &rows, &notice), 6);
    rows[RING_ROW + START] = 1;
    assert_eq!(of_void(&site, &soil, &rows, &notice), 5);
    soil[9] = 0;
    assert_eq!(of_void(&site, &soil, &rows, &notice), 4);
    notice.cell = 2;
    assert_eq!(of_void(&site, &soil, &rows, &notice), 3);
    rows.pop();
    assert_eq!(of_void(&site, &soil, &rows, &notice), 2);
    site.share = 21;
    assert_eq!(of_void(&site, &soil, &rows, &notice), 1);
}

#[test]
fn only_the_named_row_changes_or_counts() {
    let site = card(3, &[1]);
    let soil = [[0; 5], PLOT, [0; 5]].concat();
    let mut rows = vec![u32::MAX; 3 * RING_ROW];
    rows[RING_ROW..2 * RING_ROW].fill(0);
    assert_eq!(step(&site, &soil, &mut rows, &Reading { cell: 1, ..example() }).0, 0);
    assert_eq!(rows[RING_ROW..RING_ROW + 3], [0, 1, 34_513]);
    let notice = Void { cell: 1, life: 0, count: 1 };
    assert_eq!(void(&site, &soil, &mut rows, &notice).1.release, 34_513);
    assert_eq!(collect(&site, &mut rows, 1), (0, Sums { runoff: 14_287, drainage: 0 }));
    assert_eq!((rows[RING_ROW + 1], rows[2 * RING_ROW - 1]), (2, 0));
    let mut others = rows[..RING_ROW].iter().chain(&rows[2 * RING_ROW..]);
    assert!(others.all(|kept| *kept == u32::MAX));
}

/// A day that would overfill a sum doesn't move the start; once the sum is collected it does.
#[test]
fn number_15_leaves_the_start() {
    let (site, mut row) = (delayed(1, 3), row_with(4, 9, 2));
    Sums { runoff: MOST_SUMMED, drainage: 6 }.write(&mut row);
    assert_eq!(of_step(&site, &PLOT, &row, &example()), 15);
    assert_eq!(of_void(&site, &PLOT, &row, &Void::default()), 0);
    assert_eq!(collect(&site, &mut row, 0), (0, Sums { runoff: MOST_SUMMED, drainage: 6 }));
    assert_eq!(row, row_with(4, 9, 2));
    let (number, amounts) = step(&site, &PLOT, &mut row, &example());
    assert_eq!((number, amounts.release, row[START]), (0, 9, 0));
    assert_eq!(Sums::of(&row), Sums { runoff: 14_287, drainage: 0 });
}

#[test]
fn collecting_leaves_all_but_the_sums() {
    let site = delayed(3, 2);
    let row = |n: u32| {
        let mut row = row_with(3, 50 * n, n % 2);
        (row[0], row[1]) = (n, 9);
        row[32..36].copy_from_slice(&[n, 7, 3 * n, n]);
        row
    };
    let rows = [row(1), row(2), row(3)].concat();
    for cell in 0..3u32 {
        let (mut after, mut wanted, n) = (rows.clone(), rows.clone(), u64::from(cell) + 1);
        let taken = Sums { runoff: (n << 32) + 7, drainage: ((3 * n) << 32) + n };
        assert_eq!(collect(&site, &mut after, cell), (0, taken));
        wanted[RING_ROW * cell as usize + 32..][..4].fill(0);
        assert_eq!(after, wanted);
        assert_eq!(collect(&site, &mut after, cell), (0, Sums::default()));
        assert_eq!(after, wanted);
    }
}

#[test]
fn the_order_of_the_checks_of_collecting() {
    let (mut site, mut rows) = (delayed(3, 2), vec![0; 3 * RING_ROW]);
    assert_eq!(of_collect(&site, &rows, 2), 0);
    rows[2 * RING_ROW + START] = 2;
    assert_eq!([0, 1, 2].map(|cell| of_collect(&site, &rows, cell)), [0, 0, 5]);
    assert_eq!([3, 256, u32::MAX].map(|cell| of_collect(&site, &rows, cell)), [3; 3]);
    rows.pop();
    assert_eq!(of_collect(&site, &rows, 3), 2);
    assert_eq!(of_collect(&site, &rows[..3 * ROW], 3), 2);
    site.share = 4;
    assert_eq!(of_collect(&site, &rows, 3), 1);
}
