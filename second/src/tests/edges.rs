//! "Both sides of each edge", case by case.

use super::{card, example, PLOT};
use crate::numbers::{Reading, ROW};
use crate::rules::{curve_number, delay, etsat, runoff, storm_runoff};
use crate::step::step;

#[test]
fn storm_runoff_of_80() {
    assert_eq!(storm_runoff(80, 20, 12_952), 0);
    assert_eq!(storm_runoff(80, 20, 12_953), 1);
    assert_eq!(storm_runoff(80, 20, 50_800), 14_287);
}

#[test]
fn storm_runoff_of_100_without_rain() {
    assert_eq!(storm_runoff(100, 20, 0), 0);
    assert_eq!(storm_runoff(100, 20, 1), 1);
}

/// The handbook's table: a normal number, then the dry and the wet one for it.
const TABLE: [[i64; 3]; 21] = [
    [0, 0, 0],
    [5, 2, 13],
    [10, 4, 22],
    [15, 6, 30],
    [20, 9, 37],
    [25, 12, 43],
    [30, 15, 50],
    [35, 18, 55],
    [40, 22, 60],
    [45, 26, 65],
    [50, 31, 70],
    [55, 35, 74],
    [60, 40, 78],
    [65, 45, 82],
    [70, 51, 85],
    [75, 57, 88],
    [80, 63, 91],
    [85, 70, 94],
    [90, 78, 96],
    [95, 87, 98],
    [100, 100, 100],
];

/// The curve numbers of dry, normal and wet ground.
fn three(cn: i64) -> [i64; 3] {
    [1, 2, 3].map(|amc| curve_number(cn, amc))
}

#[test]
fn curve_numbers() {
    assert_eq!(three(80), [63, 80, 91]);
    assert_eq!(three(1), [1, 1, 3]);
    assert_eq!(three(75), [57, 75, 88]);
    assert_eq!(three(96), [90, 96, 98]);
    assert_eq!(three(99), [97, 99, 100]);
    assert_eq!(three(100), [100, 100, 100]);
}

#[test]
fn curve_numbers_at_the_listed_ones() {
    for [normal, dry, wet] in &TABLE[1..] {
        assert_eq!(three(*normal), [*dry, *normal, *wet]);
    }
}

/// In fifths, each listed number weighs the more the nearer it is; no fifth is a half.
#[test]
fn curve_numbers_are_nearest_between_two() {
    for cn in 1..=100 {
        let around = TABLE.windows(2).find(|two| two[0][0] <= cn && cn <= two[1][0]);
        let [low, high] = around.unwrap() else { unreachable!() };
        for (amc, place) in [(1, 1), (3, 2)] {
            let fifths = low[place] * (high[0] - cn) + high[place] * (cn - low[0]);
            let c = curve_number(cn, amc);
            let near = (5 * c - fifths).abs() <= 2;
            assert!(near || (c == 1 && fifths < 3), "cn {cn} amc {amc}");
            assert!((low[place]..=high[place]).contains(&c), "cn {cn} amc {amc}");
        }
    }
}

#[test]
fn dry_is_never_above_normal_and_wet_never_below() {
    for cn in 1..=100 {
        let [dry, normal, wet] = three(cn);
        assert!(1 <= dry && dry <= normal && normal == cn && cn <= wet && wet <= 100, "cn {cn}");
    }
}

/// At the most rain and the usual share each curve number from 8 up has its own runoff; one below 8 has none.
#[test]
fn curve_numbers_from_8_up_show() {
    let most = |c| storm_runoff(c, 20, 600_000);
    assert_eq!([0, 1, 2, 5, 6, 7, 8].map(most), [0, 0, 0, 0, 0, 0, 85]);
    assert!((8..=100).all(|c| most(c - 1) < most(c)));
}

#[test]
fn a_storm_on_dry_normal_and_wet_ground() {
    let runoff = |amc| {
        let reading = Reading { amc, ..example() };
        step(&card(1, &[]), &PLOT, &mut [0; ROW], &reading).1.runoff
    };
    assert_eq!([1, 2, 3].map(runoff), [2583, 14_287, 29_556]);
}

#[test]
fn runoff_over_a_shallow_table() {
    let at = |d| runoff(d, 0, 200, 50_800, 14_287);
    assert_eq!(at(50_000), 43_613);
    assert_eq!(at(253_999), 14_288);
    assert_eq!(at(254_000), 14_287);
    assert_eq!(at(0), 50_800);
    assert_eq!(at(-1), 50_800);
    assert_eq!(runoff(50_000, 1, 200, 50_800, 14_287), 14_287);
    assert_eq!(runoff(5, 0, 200, 0, 0), 0);
}

/// The number, etmin drawn and slots of a dry day at M = 3.
fn dry_day(etmin: u32, head: u32) -> (u32, i64, i64, Vec<u32>) {
    let card = card(1, &[1_000_000, 2_000_000, 3_000_000]);
    let mut rows = vec![0; ROW];
    rows[2..5].copy_from_slice(&[100, 700, 5000]);
    let reading = Reading { rain: 0, septic: 0, etmin, head, ..example() };
    let (number, amounts) = step(&card, &PLOT, &mut rows, &reading);
    (number, amounts.release, amounts.etstor, rows[2..5].to_vec())
}

#[test]
fn draw_on_a_dry_day() {
    assert_eq!(dry_day(2000, 0x410c_0000), (0, 100, 2000, vec![0, 3700, 0]));
    assert_eq!(dry_day(2000, 0xf149_f2ca), (0, 100, 2000, vec![0, 3700, 0]));
    // No draw at d = 0 and above the top.
    assert_eq!(dry_day(2000, 0x4120_0000), (0, 100, 0, vec![700, 5000, 0]));
    assert_eq!(dry_day(2000, 0x4128_0000), (0, 100, 0, vec![700, 5000, 0]));
}

#[test]
fn draw_as_far_as_it_goes() {
    let card = card(1, &[1_000_000, 2_000_000, 3_000_000]);
    let mut rows = vec![0; ROW];
    rows[2..5].copy_from_slice(&[100, 700, 500]);
    let reading = Reading { rain: 0, septic: 0, etmin: 2000, pet: 2000, ..example() };
    let (number, amounts) = step(&card, &PLOT, &mut rows, &reading);
    assert_eq!((number, amounts.etstor, amounts.left), (0, 1200, 0));
    // A sixth of the rest of pet, 800, comes from the table at d = 1,250,000.
    assert_eq!((amounts.release, amounts.etsat), (100, 133));
}

#[test]
fn drain_above_the_top() {
    let card = card(1, &[1_000_000]);
    let reading = Reading { rain: 0, etmin: 0, head: 0x4128_0000, ..example() };
    let (number, amounts) = step(&card, &PLOT, &mut [0; ROW], &reading);
    assert_eq!((number, amounts.drain, amounts.recharge), (0, 50_000, -54_000));
    assert_eq!((amounts.etsat, amounts.runoff, amounts.inflow), (5000, 0, 1000));
}

#[test]
fn delay_at_a_depth_equal_to_its_own() {
    let card = card(1, &[1000, 2000]);
    assert_eq!([0, 999, 1000, 1999, 2000, 9999].map(|d| delay(&card, d)), [0, 0, 1, 1, 2, 2]);
    assert_eq!(delay(&super::card(1, &[]), 20_000_000_000), 0);
}

#[test]
fn etsat_by_depth() {
    assert_eq!([-1, 0, 1, 999, 1000, 1001].map(|d| etsat(d, 1000, 500)), [500, 500, 499, 0, 0, 0]);
}

#[test]
fn deposit_follows_the_shift() {
    let card = card(1, &[1]);
    let mut rows = [0; ROW];
    let first = Reading { septic: 7, etmin: 0, pet: 0, ..example() };
    let (_, amounts) = step(&card, &PLOT, &mut rows, &first);
    assert_eq!((amounts.release, amounts.stored, amounts.recharge), (0, 36_513, 7));
    let second = Reading { count: 1, rain: 0, septic: 0, etmin: 0, pet: 0, ..example() };
    let (_, amounts) = step(&card, &PLOT, &mut rows, &second);
    assert_eq!((amounts.release, amounts.stored, amounts.recharge), (36_513, 0, 36_513));
}

#[test]
fn irrigation_counts_for_plants_but_not_for_the_storm() {
    let card = card(1, &[]);
    let reading = Reading { rain: 0, irrig: 3000, septic: 0, etmin: 1000, ..example() };
    let (_, amounts) = step(&card, &PLOT, &mut [0; ROW], &reading);
    assert_eq!((amounts.runoff, amounts.etvad, amounts.inflow), (0, 3000, 3000));
    let reading = Reading { rain: 9000, irrig: 3000, septic: 0, etmin: 1000, ..example() };
    let (_, amounts) = step(&card, &PLOT, &mut [0; ROW], &reading);
    // 12,000 less 4000, less a sixth of the rest of pet, 1000.
    assert_eq!((amounts.runoff, amounts.etvad, amounts.recharge), (0, 4000, 8000 - 166));
}

/// The most water a day, each day's due on the same day, fills slot 1 as far as readings can.
#[test]
fn a_queue_filled_by_the_most_water() {
    let depths: Vec<u32> = (1..=30).map(|k| 1_000_000 * k).collect();
    let (site, soil, mut rows) = (card(1, &depths), [0, 1, 1000, 0, 1], [0; ROW]);
    for count in 0..30 {
        let head = (-((30 - count) as f32)).to_bits();
        let (rain, irrig) = (600_000, 1_000_000);
        let reading = Reading { count, rain, irrig, amc: 2, head, ..Reading::default() };
        assert_eq!(step(&site, &soil, &mut rows, &reading).0, 0);
    }
    assert_eq!((rows[1], rows[2], rows[3]), (30, 48_000_000, 0));
    let dry = Reading { count: 30, amc: 2, head: 0xf149_f2ca, ..Reading::default() };
    let (number, amounts) = step(&site, &soil, &mut rows, &dry);
    assert_eq!((number, amounts.release, amounts.left), (0, 48_000_000, 0));
}
