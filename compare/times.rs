//! How the race takes its times: pairs of them, the two sides in turns, and the median and quartiles of many pairs.

use crate::courses::{Course, READINGS, TIMES};
use crate::numbers::{amounts_numbers, card_numbers, card_of, reading_numbers, reading_of};
use crate::waterbook::{ROW, raw};
use std::time::Instant;

/// Pairs of times taken for each line of a table.
pub const PAIRS: usize = 61;

/// A library's step over slices, and how many numbers its rows have.
#[derive(Clone, Copy)]
pub struct Side {
    pub step: Step,
    pub row: usize,
}

/// This library.
pub const LIBRARY: Side = Side { step: raw::step, row: ROW };

/// What steps over a course came to: their seconds, the sum of their numbers and recharge, and the rows in the end.
#[derive(Default)]
pub struct Ran {
    pub seconds: f64,
    pub sum: i64,
    pub rows: Vec<u32>,
}

impl Ran {
    /// Go through a course once more, from these rows.
    fn again(&mut self, rows: Vec<u32>, steps: impl FnOnce(&mut [u32]) -> i64) {
        self.rows = rows;
        let start = Instant::now();
        let sum = steps(&mut self.rows);
        self.seconds += start.elapsed().as_secs_f64();
        self.sum += sum;
    }

    /// The same answers as this library's, and the same rows, as far as they go?
    pub fn alike(&self, row: usize, now: &Ran) -> bool {
        self.sum == now.sum && self.rows == cut(&now.rows, row)
    }
}

/// Rows of this library with so many numbers of each.
fn cut(rows: &[u32], numbers: usize) -> Vec<u32> {
    rows.chunks(ROW).flat_map(|row| row.iter().take(numbers)).copied().collect()
}

/// Steps over slices through a course, some times.
pub fn sliced_steps(side: Side, course: &Course, readings: &[[u32; 10]]) -> Ran {
    let (card, soil) = (card_numbers(&course.site.card), &course.site.soil);
    let (rows, mut ran) = (cut(&course.site.rows, side.row), Ran::default());
    for _ in 0..TIMES {
        ran.again(rows.clone(), |rows| {
            let (mut amounts, mut sum) = ([0; 10], 0);
            for reading in readings {
                let number = (side.step)(&card, soil, rows, reading, &mut amounts);
                sum += i64::from(number) + amounts[8];
            }
            sum
        });
    }
    ran
}

/// The second's steps through a course, as often.
pub fn second_steps(course: &Course) -> Ran {
    let (card, soil, mut ran) = (&course.site.card, &course.site.soil, Ran::default());
    for _ in 0..TIMES {
        ran.again(course.site.rows.clone(), |rows| {
            let mut sum = 0;
            for reading in &course.readings {
                let (number, amounts) = second::step::step(card, soil, rows, reading);
                sum += i64::from(number) + amounts.recharge;
            }
            sum
        });
    }
    ran
}

/// The second's step over the library's slices, as a host would call it that has nothing else.
#[inline(never)]
pub fn step_over_slices(
    card: &[u32],
    soil: &[i64],
    rows: &mut [u32],
    reading: &[u32],
    amounts: &mut [i64],
) -> u32 {
    let (number, answer) = second::step::step(&card_of(card), soil, rows, &reading_of(reading));
    amounts.copy_from_slice(&amounts_numbers(&answer));
    number
}

/// A step over slices: card, soil numbers, rows, reading and amounts.
pub type Step = fn(&[u32], &[i64], &mut [u32], &[u32], &mut [i64]) -> u32;

/// Three quartiles of some numbers: a quarter below, the median, a quarter above.
fn quartiles(mut numbers: Vec<f64>) -> [f64; 3] {
    numbers.sort_by(f64::total_cmp);
    [1, 2, 3].map(|quarter| numbers[(numbers.len() - 1) * quarter / 4])
}

/// Pairs of times: the median of each side, and the quartiles of the other over the one.
pub struct Pairs {
    pub one: f64,
    pub other: f64,
    pub ratio: [f64; 3],
}

/// Take so many pairs of times, the two sides in turns.
pub fn pairs(count: usize, mut one: impl FnMut() -> f64, mut other: impl FnMut() -> f64) -> Pairs {
    let (mut ones, mut others, mut ratios) = (Vec::new(), Vec::new(), Vec::new());
    for pair in 0..count {
        let (of_one, of_other) = if pair % 2 == 0 {
            let of_one = one();
            (of_one, other())
        } else {
            let of_other = other();
            (one(), of_other)
        };
        ones.push(of_one);
        others.push(of_other);
        ratios.push(of_other / of_one);
    }
    Pairs { one: quartiles(ones)[1], other: quartiles(others)[1], ratio: quartiles(ratios) }
}

/// The readings of a course in numbers; the library and the second program must answer them alike.
pub fn in_numbers(course: &Course) -> Vec<[u32; 10]> {
    let readings: Vec<[u32; 10]> = course.readings.iter().map(reading_numbers).collect();
    let same = second_steps(course).alike(ROW, &sliced_steps(LIBRARY, course, &readings));
    assert!(same, "the two sides of the race answer alike");
    readings
}

/// The pairs of times of a step over slices and of the second's step over its own records.
pub fn step_pairs(side: Side, course: &Course) -> Pairs {
    let readings = in_numbers(course);
    let time = || sliced_steps(side, course, &readings).seconds;
    pairs(PAIRS, time, || second_steps(course).seconds)
}

/// The pairs of times of two steps over the same slices.
pub fn sliced_pairs(one: Side, other: Side, course: &Course) -> Pairs {
    let readings = in_numbers(course);
    let time = |side| sliced_steps(side, course, &readings).seconds;
    pairs(PAIRS, || time(one), || time(other))
}

/// Millions of steps per second, from the seconds of a course.
pub fn millions(seconds: f64) -> f64 {
    (READINGS * TIMES) as f64 / seconds / 1e6
}

/// The median and spread of a ratio, as cells of a table.
pub fn ratio_cells(ratio: &[f64; 3]) -> String {
    format!("{:.2} | {:.2} to {:.2}", ratio[1], ratio[0], ratio[2])
}
