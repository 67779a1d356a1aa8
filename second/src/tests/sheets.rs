//! The sheet: what is added, and number 11.

use crate::numbers::Amounts;
use crate::sheet::Sheet;

const LARGEST: i64 = 30_000_000_000;

/// An answer with these ten amounts.
fn answer(ten: [i64; 10]) -> Amounts {
    let [inflow, runoff, etvad, etstor, etsat, drain, release, stored, recharge, left] = ten;
    Amounts { inflow, runoff, etvad, etstor, etsat, drain, release, stored, recharge, left }
}

#[test]
fn sums_all_but_left() {
    let (sheet, number) = Sheet::default().add(0, &answer([1, 2, 3, 4, 5, 6, 7, 8, -9, 10]));
    assert_eq!((sheet.steps, sheet.sums, number), (1, [1, 2, 3, 4, 5, 6, 7, 8, -9], 0));
    let (sheet, number) = sheet.add(0, &answer([1; 10]));
    assert_eq!((sheet.steps, sheet.sums, number), (2, [2, 3, 4, 5, 6, 7, 8, 9, -8], 0));
}

#[test]
fn number_11_for_an_answer_not_accepted() {
    let sheet = Sheet { steps: 3, sums: [5; 9] };
    for number in [1, 6, 10, 12, 99] {
        assert_eq!(sheet.add(number, &Amounts::default()), (sheet, 11));
    }
}

#[test]
fn number_11_for_a_full_sheet() {
    let of = |steps| Sheet { steps, sums: [0; 9] }.add(0, &Amounts::default()).1;
    assert_eq!([99_999_999, 100_000_000, u64::MAX].map(of), [0, 11, 11]);
}

#[test]
fn number_11_for_an_amount() {
    for place in 0..10 {
        let of = |amount| {
            let mut ten = [0; 10];
            ten[place] = amount;
            let (sheet, number) = Sheet::default().add(0, &answer(ten));
            assert!(number == 0 || sheet == Sheet::default());
            number
        };
        let below = if place == 8 { 0 } else { 11 };
        assert_eq!([LARGEST, LARGEST + 1, i64::MAX].map(of), [0, 11, 11]);
        assert_eq!([0, -1, -LARGEST].map(of), [0, below, below]);
        assert_eq!([-LARGEST - 1, i64::MIN].map(of), [11, 11]);
    }
}

#[test]
fn number_11_for_a_sum() {
    for place in 0..9 {
        let of = |steps, sum| {
            let mut sheet = Sheet { steps, sums: [0; 9] };
            sheet.sums[place] = sum;
            sheet.add(0, &Amounts::default()).1
        };
        let below = if place == 8 { 0 } else { 11 };
        assert_eq!([of(0, 0), of(0, 1), of(0, -1)], [0, 11, 11]);
        assert_eq!([of(2, 2 * LARGEST), of(2, 2 * LARGEST + 1)], [0, 11]);
        assert_eq!([of(2, -2 * LARGEST), of(2, -2 * LARGEST - 1)], [below, 11]);
        assert_eq!([of(1, i64::MIN), of(99_999_999, i64::MAX)], [11, 11]);
    }
}
