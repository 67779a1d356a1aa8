//! The share of the first wetting: what it does to storm runoff, and its range.

use super::{card, example, PLOT};
use crate::numbers::{Amounts, Card, Reading, Void, OLD_ROW, ROW};
use crate::rules::storm_runoff;
use crate::step::{check, clear, step, void};

/// A card of one cell with this share.
fn of(share: u32) -> Card {
    Card { share, ..card(1, &[1_000_000, 2_000_000]) }
}

/// 80 x 3,175 is 254,000, which is 2,540 x 5 x 20; t more of rain give 1 once t(t - 1) is 63,500 or more.
#[test]
fn storm_runoff_of_80_at_5() {
    let at = |rain| storm_runoff(80, 5, rain);
    assert_eq!([0, 3_174, 3_175, 3_176].map(at), [0; 4]);
    assert_eq!([3_427, 3_428], [3_175 + 252, 3_175 + 253]);
    assert_eq!([3_427, 3_428].map(at), [0, 1]);
    // 3,810,000 squared over 80 x 8,890,000.
    assert_eq!(at(50_800), 20_410);
}

/// At 10 percent the first 508,000 / 80 = 6,350 run nowhere; 3,556,000 squared over 80 x 8,636,000 is close below 18,303.
#[test]
fn storm_runoff_of_80_at_10() {
    let at = |rain| storm_runoff(80, 10, rain);
    assert_eq!([6_350, 6_350 + 252, 6_350 + 253].map(at), [0, 0, 1]);
    assert_eq!(at(50_800), 18_302);
}

/// Curve number 2 loses more than the most rain at 5 percent; of 3 it is 1,231,900 of 1,800,000.
#[test]
fn storm_runoff_of_the_lowest_curve_numbers_at_5() {
    assert_eq!(storm_runoff(2, 5, 600_000), 0);
    assert_eq!(storm_runoff(3, 5, 410_633), 0);
    assert_eq!(storm_runoff(3, 5, 600_000), 4_267);
}

/// The rule as it was before cards had a share.
fn storm_runoff_before(c: i64, rain: i64) -> i64 {
    let (x, y) = (c * rain - 50_800 * (100 - c), c * rain + 203_200 * (100 - c));
    if x <= 0 {
        0
    } else {
        x * x / (c * y)
    }
}

/// Rains from none to the end of the range, more of them where little falls.
fn rains() -> impl Iterator<Item = i64> {
    (0..2000).map(|place| place * place / 4 + place % 3).chain([600_000, 999_999, 1_000_000])
}

#[test]
fn at_20_every_runoff_is_as_before() {
    for c in 1..=100 {
        assert!(rains().all(|rain| storm_runoff(c, 20, rain) == storm_runoff_before(c, rain)));
    }
}

#[test]
fn storm_runoff_never_exceeds_rain_and_falls_as_the_share_grows() {
    for c in 1..=100 {
        for rain in rains() {
            let runoffs: Vec<i64> = (5..=20).map(|share| storm_runoff(c, share, rain)).collect();
            assert!(runoffs.iter().all(|q| (0..=rain).contains(q)), "c {c} rain {rain}");
            assert!(runoffs.is_sorted_by(|less, more| less >= more), "c {c} rain {rain}");
        }
    }
}

#[test]
fn ground_that_holds_nothing_has_no_first_loss() {
    let rains = [0, 1, 50_800, 600_000];
    for share in 5..=20 {
        assert_eq!(rains.map(|rain| storm_runoff(100, share, rain)), rains);
    }
}

/// At the most rain every share has a runoff of its own on each curve number from 8 to 99.
#[test]
fn every_share_shows() {
    for c in 8..=99 {
        let runoffs: Vec<i64> = (5..=20).map(|share| storm_runoff(c, share, 600_000)).collect();
        assert!(runoffs.is_sorted_by(|more, less| more > less), "c {c}");
    }
}

/// The number and runoff of the example's reading, the table at a head.
fn stepped(share: u32, head: u32) -> (u32, i64) {
    let reading = Reading { head, ..example() };
    let (number, amounts) = step(&of(share), &PLOT, &mut [0; ROW], &reading);
    (number, amounts.runoff)
}

#[test]
fn a_step_takes_the_cards_share() {
    assert_eq!(stepped(20, 0x410c_0000), (0, 14_287));
    assert_eq!(stepped(10, 0x410c_0000), (0, 18_302));
    assert_eq!(stepped(5, 0x410c_0000), (0, 20_410));
    // At the top all of it runs off, whatever the share.
    assert_eq!([5, 20].map(|share| stepped(share, 0x4120_0000)), [(0, 50_800); 2]);
}

/// Over a table 50,000 down the pores take 10,000,000 x (50,800 - q) / 50,800,000.
#[test]
fn a_shallow_table_and_the_share() {
    let soil = [50_000, 1_500_000, 200, 100_000, 80];
    let runoff = |share| {
        let reading = Reading { head: 0, ..example() };
        step(&of(share), &soil, &mut [0; ROW], &reading).1.runoff
    };
    assert_eq!([20, 5].map(runoff), [50_800 - 7_187, 50_800 - 5_982]);
}

#[test]
fn only_rain_wets_first() {
    let reading = Reading { rain: 3_428, irrig: 900_000, head: 0xf149_f2ca, ..example() };
    let (number, amounts) = step(&of(5), &PLOT, &mut [0; ROW], &reading);
    assert_eq!((number, amounts.runoff), (0, 1));
}

/// The numbers of a step, a void and a clearing on a card with this share, which leave the rows if they refuse.
fn numbers(share: u32) -> [u32; 3] {
    let (site, rows) = (of(share), [7; ROW]);
    let turn = Void { cell: 0, life: 7, count: 7 };
    let mut slots = rows;
    slots[4..OLD_ROW].fill(0);
    let (mut stepped, mut voided, mut cleared) = (slots, slots, rows);
    let (number, amounts) =
        step(&site, &PLOT, &mut stepped, &Reading { life: 7, count: 7, ..example() });
    let (number_of_void, void_amounts) = void(&site, &PLOT, &mut voided, &turn);
    let number_of_clearing = clear(&site, &mut cleared);
    assert_eq!(number != 0, stepped == slots && amounts == Amounts::default());
    assert_eq!(number_of_void != 0, voided == slots && void_amounts == Amounts::default());
    assert_eq!(cleared, if number_of_clearing == 0 { [0; ROW] } else { rows });
    [number, number_of_void, number_of_clearing]
}

#[test]
fn shares_in_range() {
    for share in 5..=20 {
        assert_eq!(numbers(share), [0; 3], "share {share}");
    }
}

#[test]
fn shares_out_of_range_give_1() {
    let far = [26, 95, 100, 256 + 20, 65_536 + 5, 1 << 31, u32::MAX - 4, u32::MAX];
    for share in (0..=4).chain(21..=25).chain(far) {
        assert_eq!(numbers(share), [1; 3], "share {share}");
    }
}

/// With every other check failed too, the share's is the first, as all of the card's are.
#[test]
fn the_share_is_a_matter_of_the_card() {
    let wrong = Reading { cell: 9, life: u32::MAX, amc: 0, head: u32::MAX, ..example() };
    for share in [0, 4, 21, u32::MAX] {
        assert_eq!(check(&of(share), &[0; 4], &[9; ROW - 1], &wrong), 1);
        assert_eq!(clear(&of(share), &mut [9; ROW - 1]), 1);
    }
    assert_eq!(check(&of(5), &[0; 4], &[9; ROW - 1], &wrong), 2);
    assert_eq!(clear(&of(5), &mut [9; ROW - 1]), 2);
    assert!(!Card::ZEROS.in_range() && Card::ZEROS.share == 0 && Card::BLANK.share == 20);
}

/// The queue, plants and the table know nothing of the share, and a void neither.
#[test]
fn without_rain_the_share_changes_nothing() {
    let reading = Reading { rain: 0, irrig: 4_000, ..example() };
    let mut rows = [0; ROW];
    (rows[2], rows[3]) = (5_000, 700);
    let days = [5, 11, 20].map(|share| {
        let (mut stepped, mut voided) = (rows, rows);
        let answer = step(&of(share), &PLOT, &mut stepped, &reading);
        let notice = void(&of(share), &PLOT, &mut voided, &Void::default());
        (answer, stepped, notice, voided)
    });
    let (number, _) = days[0].0;
    assert!(number == 0 && days[0] == days[1] && days[1] == days[2]);
}
