//! The race against an earlier build: `before NAME` times the steps of an earlier library and of this one, both linked
//! into this program by `tests/race COMMIT`, over the same readings.

#[allow(dead_code)]
mod courses;
#[allow(dead_code)]
mod numbers;
#[allow(dead_code)]
mod times;
#[allow(dead_code)]
#[path = "../gateway/waterbook.rs"]
mod waterbook;

use courses::courses;
use std::process::ExitCode;
use times::{
    Side, Step, in_numbers, millions, ratio_cells, sliced_pairs, sliced_steps, step_pairs,
};
use waterbook::{CARD, NOT_THE_COUNT, OLD_ROW, ROW, Refusal, SHARE_AT, USUAL_SHARE};

/// A library's step by the name that it is linked under, where its cards have so many numbers.
macro_rules! step_of {
    ($symbol:ident, $width:expr) => {{
        unsafe extern "C" {
            fn $symbol(
                card: *const u32,
                cards: usize,
                soil: *const i64,
                soils: usize,
                rows: *mut u32,
                row_numbers: usize,
                reading: *const u32,
                readings: usize,
                amounts: *mut i64,
                amount_numbers: usize,
            ) -> u32;
        }
        // SAFETY: each pointer comes with the length of its slice, and none is kept.
        let step: Step = |card, soil, rows, reading, amounts| unsafe {
            let card = &card[..$width];
            $symbol(
                card.as_ptr(),
                card.len(),
                soil.as_ptr(),
                soil.len(),
                rows.as_mut_ptr(),
                rows.len(),
                reading.as_ptr(),
                reading.len(),
                amounts.as_mut_ptr(),
                amounts.len(),
            )
        };
        step
    }};
}

/// The earlier library: where it says that a card with a share is too wide, its cards are lent without, and where rows
/// with sums are too long for it, its rows have none.
fn earlier() -> Side {
    let (whole, shareless) = (step_of!(before_step, CARD), step_of!(before_step, SHARE_AT));
    let step = match whole(&[0; CARD], &[], &mut [], &[0; 10], &mut [0; 10]) {
        NOT_THE_COUNT => shareless,
        _ => whole,
    };
    let mut card = [0; CARD];
    (card[0], card[SHARE_AT]) = (1, USUAL_SHARE);
    let number = step(&card, &[0, 1, 1, 0, 1], &mut [0; ROW], &[0; 10], &mut [0; 10]);
    let sumless = number == Refusal::BadLengths.number();
    Side { step, row: if sumless { OLD_ROW } else { ROW } }
}

fn main() -> ExitCode {
    let words: Vec<String> = std::env::args().skip(1).collect();
    let [commit] = &words[..] else {
        eprintln!("usage: before NAME");
        return ExitCode::from(2);
    };
    let (before, now) = (earlier(), Side { step: step_of!(now_step, CARD), row: ROW });
    println!(
        "\nSteps of the library of {commit} (before) and of this one (now), 4 cells, in millions per second;"
    );
    println!(
        "a ratio of A to B above 1 means that A is faster; the last two are to the second program:\n"
    );
    println!(
        "| M | table | readings | before | now | now to before | spread of the ratio | before to second | now to second |"
    );
    println!("|---|---|---|---|---|---|---|---|---|");
    for (name, course) in courses() {
        let readings = in_numbers(&course);
        let [was, is] = [before, now].map(|side| sliced_steps(side, &course, &readings));
        assert!(was.alike(before.row, &is), "the two libraries answer alike");
        let pairs = sliced_pairs(now, before, &course);
        let ratio = ratio_cells(&pairs.ratio);
        let [was, is] = [before, now].map(|side| step_pairs(side, &course).ratio[1]);
        let (old, new) = (millions(pairs.other), millions(pairs.one));
        println!("| {name} | {old:.2} | {new:.2} | {ratio} | {was:.2} | {is:.2} |");
    }
    ExitCode::SUCCESS
}
