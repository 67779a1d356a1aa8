//! Each refusal number, both sides of its edge, and the order of the checks.

use super::{card, example, PLOT};
use crate::numbers::{Amounts, Card, Reading, Void, OLD_ROW, ROW};
use crate::step::{clear, step, void};

/// The number of a step that must leave the rows alone if it is refused.
fn number(card: &Card, soil: &[i64], rows: &[u32], reading: &Reading) -> u32 {
    let mut after = rows.to_vec();
    let (number, amounts) = step(card, soil, &mut after, reading);
    if number != 0 {
        assert_eq!(after, rows);
        assert_eq!(amounts, Amounts::default());
    }
    number
}

/// The number of a reading on the example's site.
fn of_reading(reading: &Reading) -> u32 {
    number(&card(1, &[1_000_000, 2_000_000]), &PLOT, &[0; ROW], reading)
}

/// The number of the example's reading on a row.
fn of_row(delays: usize, place: usize, kept: u32) -> u32 {
    let depths: Vec<u32> = (1..=delays as u32).collect();
    let mut rows = [0; ROW];
    rows[place] = kept;
    let turn = Reading { life: rows[0], count: rows[1], ..example() };
    number(&card(1, &depths), &PLOT, &rows, &turn)
}

#[test]
fn number_1() {
    let of =
        |card: Card| (number(&card, &PLOT, &[0; ROW], &example()), clear(&card, &mut [0; ROW]));
    assert_eq!(of(card(1, &[])), (0, 0));
    assert_eq!(of(card(1, &[1, 2, 1_000_000_000])), (0, 0));
    assert_eq!(of(card(0, &[])), (1, 1));
    assert_eq!(of(card(257, &[])), (1, 1));
    assert_eq!(of(card(1, &[0])), (1, 1));
    assert_eq!(of(card(1, &[1_000_000_001])), (1, 1));
    assert_eq!(of(card(1, &[5, 5])), (1, 1));
    assert_eq!(of(card(1, &[6, 5])), (1, 1));
    let mut unused = card(1, &[5]);
    unused.depths[29] = 6;
    assert_eq!(of(unused), (1, 1));
    assert_eq!(of(Card { delays: 31, ..card(1, &[]) }), (1, 1));
    assert_eq!(of(Card { delays: u32::MAX, ..card(1, &[]) }), (1, 1));
}

#[test]
fn number_2() {
    let site = card(1, &[]);
    assert_eq!(number(&site, &PLOT[..4], &[0; ROW], &example()), 2);
    assert_eq!(number(&site, &[0; 6], &[0; ROW], &example()), 2);
    assert_eq!(number(&site, &PLOT, &[0; ROW - 1], &example()), 2);
    assert_eq!(number(&site, &PLOT, &[0; ROW + 1], &example()), 2);
    assert_eq!(number(&site, &PLOT, &[0; OLD_ROW], &example()), 2);
    assert_eq!(clear(&site, &mut [7; ROW + 1]), 2);
    assert_eq!(clear(&site, &mut [7; OLD_ROW]), 2);
}

#[test]
fn clearing() {
    let mut rows = [7; 2 * ROW];
    assert_eq!(clear(&card(1, &[]), &mut rows), 2);
    assert_eq!(clear(&card(2, &[0]), &mut rows), 1);
    assert_eq!(rows, [7; 2 * ROW]);
    assert_eq!(clear(&card(2, &[]), &mut rows), 0);
    assert_eq!(rows, [0; 2 * ROW]);
}

#[test]
fn number_3() {
    assert_eq!(of_reading(&Reading { cell: 1, ..example() }), 3);
    assert_eq!(of_reading(&Reading { cell: u32::MAX, ..example() }), 3);
}

#[test]
fn number_4() {
    let of = |place: usize, soil_number: i64| {
        let mut soil = PLOT;
        soil[place] = soil_number;
        number(&card(1, &[]), &soil, &[0; ROW], &example())
    };
    let edges =
        [(-10_000_000_000, 10_000_000_000), (1, 100_000_000), (1, 1000), (0, 1_000_000), (1, 100)];
    for (place, (low, high)) in edges.into_iter().enumerate() {
        assert_eq!([low - 1, low, high, high + 1].map(|n| of(place, n)), [4, 0, 0, 4]);
        assert_eq!([i64::MIN, i64::MAX].map(|n| of(place, n)), [4, 4]);
    }
}

#[test]
fn number_5() {
    assert_eq!(of_row(0, 0, 65_535), 0);
    assert_eq!(of_row(0, 0, 65_536), 5);
    assert_eq!(of_row(0, 1, 999_999), 0);
    assert_eq!(of_row(0, 1, 1_000_000), 8);
    assert_eq!(of_row(0, 1, 1_000_001), 5);
    for k in 1..=30usize {
        for delays in 0..=30usize {
            let limit = if k > delays { 0 } else { 2_000_000 * (delays - k + 1) as u32 };
            assert_eq!(of_row(delays, k + 1, limit), 0, "slot {k} of {delays}");
            assert_eq!(of_row(delays, k + 1, limit + 1), 5, "slot {k} of {delays}");
        }
    }
}

#[test]
fn numbers_6_and_7() {
    let site = card(1, &[]);
    let mut rows = [0; ROW];
    (rows[0], rows[1]) = (3, 7);
    let of = |life, count| number(&site, &PLOT, &rows, &Reading { life, count, ..example() });
    assert_eq!(of(3, 6), 6);
    assert_eq!(of(3, 7), 0);
    assert_eq!(of(3, 8), 7);
    assert_eq!(of(5, 1), 7);
    assert_eq!(of(5, 0), 0);
    assert_eq!(of(2, 900), 6);
    assert_eq!(of(u32::MAX, 0), 8);
    assert_eq!(of(u32::MAX, 1), 7);
    assert_eq!(of(3, u32::MAX), 7);
}

#[test]
fn number_8() {
    let fields: [fn(&mut Reading) -> &mut u32; 4] =
        [|r| &mut r.irrig, |r| &mut r.septic, |r| &mut r.etmin, |r| &mut r.pet];
    for field in fields {
        let of = |water| {
            let mut reading = Reading { etmin: 0, pet: 1_000_000, ..example() };
            *field(&mut reading) = water;
            of_reading(&reading)
        };
        assert_eq!([0, 1_000_000, 1_000_001, u32::MAX].map(of), [0, 0, 8, 8]);
    }
    let rain = |rain| of_reading(&Reading { rain, ..example() });
    assert_eq!([0, 600_000, 1_000_001, u32::MAX].map(rain), [0, 0, 8, 8]);
    let amc = |amc| of_reading(&Reading { amc, ..example() });
    assert_eq!([0, 1, 2, 3, 4].map(amc), [8, 0, 0, 0, 8]);
    let life = |life| of_reading(&Reading { life, ..example() });
    assert_eq!([65_535, 65_536].map(life), [0, 8]);
    let etmin = |etmin| of_reading(&Reading { etmin, ..example() });
    assert_eq!([5000, 5001].map(etmin), [0, 8]);
}

#[test]
fn number_17() {
    let jammed = Reading { rain: 600_001, ..example() };
    let rain = |rain| of_reading(&Reading { rain, ..jammed });
    assert_eq!([600_000, 600_001, 940_000, 1_000_000, 1_000_001].map(rain), [0, 17, 17, 17, 8]);
    // The other waters may be as much as ever.
    let most = Reading { rain: 600_000, irrig: 1_000_000, septic: 1_000_000, ..jammed };
    assert_eq!(of_reading(&most), 0);
    // Every fault of a field comes first, and every head after.
    assert_eq!(of_reading(&Reading { etmin: 5001, ..jammed }), 8);
    assert_eq!(of_reading(&Reading { amc: 0, ..jammed }), 8);
    assert_eq!(of_reading(&Reading { irrig: 1_000_001, ..jammed }), 8);
    let head = |head| of_reading(&Reading { head, ..jammed });
    assert_eq!([0x7fc0_0000, 0x7149_f2ca].map(head), [17, 17]);
}

/// The days after a jammed one are gaps until a corrected reading, or a void, has its count.
#[test]
fn a_jammed_count_stays_open() {
    let site = card(1, &[1_000_000]);
    let jammed = Reading { rain: 940_000, ..example() };
    let (later, notice) = (Reading { count: 1, ..example() }, Void { cell: 0, life: 0, count: 0 });
    let mend: [fn(&Card, &mut [u32], &Void) -> u32; 2] = [
        |site, rows, _| step(site, &PLOT, rows, &example()).0,
        |site, rows, notice| void(site, &PLOT, rows, notice).0,
    ];
    for mend in mend {
        let mut rows = [0; ROW];
        assert_eq!(step(&site, &PLOT, &mut rows, &jammed), (17, Amounts::default()));
        assert_eq!(step(&site, &PLOT, &mut rows, &later).0, 7);
        assert_eq!(rows, [0; ROW]);
        assert_eq!(mend(&site, &mut rows, &notice), 0);
        assert_eq!(step(&site, &PLOT, &mut rows, &jammed).0, 6);
        assert_eq!(step(&site, &PLOT, &mut rows, &later).0, 0);
    }
}

#[test]
fn numbers_9_and_10() {
    let of = |head| of_reading(&Reading { head, ..example() });
    assert_eq!([0x461c_4000, 0x461c_4001, 0x7fc0_0000, 0xff80_0000].map(of), [0, 9, 9, 9]);
    assert_eq!([0x7149_f2ca, 0xf149_f2ca, 0x7149_f2cb].map(of), [10, 0, 9]);
}

/// Each fault, put in from the last check to the first, takes over the number.
#[test]
fn the_order_of_the_checks() {
    let (mut site, mut soil, mut rows) = (card(2, &[5]), [PLOT, PLOT].concat(), vec![0; 72]);
    (rows[ROW], rows[ROW + 1]) = (3, 7);
    let mut reading = Reading { cell: 1, life: 3, count: 7, ..example() };
    assert_eq!(number(&site, &soil, &rows, &reading), 0);
    rows[ROW + 32..].copy_from_slice(&[232_830_643, 2_808_348_672, 0, 0]);
    assert_eq!(number(&site, &soil, &rows, &reading), 15);
    reading.head = 0x7149_f2ca;
    assert_eq!(number(&site, &soil, &rows, &reading), 10);
    reading.head = 0x7fc0_0000;
    assert_eq!(number(&site, &soil, &rows, &reading), 9);
    reading.rain = 1_000_000;
    assert_eq!(number(&site, &soil, &rows, &reading), 17);
    reading.amc = 0;
    assert_eq!(number(&site, &soil, &rows, &reading), 8);
    reading.count = 8;
    assert_eq!(number(&site, &soil, &rows, &reading), 7);
    reading.life = 2;
    assert_eq!(number(&site, &soil, &rows, &reading), 6);
    rows[ROW + 31] = 1;
    assert_eq!(number(&site, &soil, &rows, &reading), 5);
    soil[9] = 0;
    assert_eq!(number(&site, &soil, &rows, &reading), 4);
    reading.cell = 2;
    assert_eq!(number(&site, &soil, &rows, &reading), 3);
    rows.pop();
    assert_eq!(number(&site, &soil, &rows, &reading), 2);
    site.depths[7] = 1;
    assert_eq!(number(&site, &soil, &rows, &reading), 1);
}

#[test]
fn only_the_named_row_changes_or_counts() {
    let site = card(3, &[1]);
    let soil = [[0; 5], PLOT, [0; 5]].concat();
    let mut rows = vec![u32::MAX; 3 * ROW];
    rows[ROW..2 * ROW].fill(0);
    let (number, _) = step(&site, &soil, &mut rows, &Reading { cell: 1, ..example() });
    assert_eq!(number, 0);
    assert_eq!(rows[ROW..ROW + 3], [0, 1, 34_513]);
    assert!(rows[..ROW].iter().chain(&rows[2 * ROW..]).all(|kept| *kept == u32::MAX));
}

#[test]
fn a_refused_count_may_be_used_again() {
    let site = card(1, &[]);
    let mut rows = [0; ROW];
    for wrong in [Reading { amc: 9, ..example() }, Reading { head: u32::MAX, ..example() }] {
        assert_ne!(step(&site, &PLOT, &mut rows, &wrong).0, 0);
    }
    assert_eq!(step(&site, &PLOT, &mut rows, &example()).0, 0);
    assert_eq!(step(&site, &PLOT, &mut rows, &example()).0, 6);
}
