//! The race: `race WATERBOOK SECOND` times the proved build against the second program, in one run on one machine.
//! Both get the same readings; each time is taken for the one and at once for the other, and each pair gives a ratio.

mod courses;
#[allow(dead_code)]
mod numbers;
mod times;
#[allow(dead_code)]
#[path = "../gateway/waterbook.rs"]
mod waterbook;

use courses::{Course, READINGS, TIMES, Table, accepted, courses, journal, refused_with};
use std::hint::black_box;
use std::io::Write;
use std::process::{Command, ExitCode, Stdio};
use std::time::Instant;
use times::{
    LIBRARY, PAIRS, Side, millions, pairs, ratio_cells, sliced_pairs, step_over_slices, step_pairs,
};
use waterbook::raw;

/// The ratio to the second's step over the library's slices.
fn over_slices(course: &Course) -> f64 {
    let second = Side { step: step_over_slices, ..LIBRARY };
    sliced_pairs(LIBRARY, second, course).ratio[1]
}

/// Steps per second.
fn race_steps() {
    println!(
        "\nSteps, 4 cells, in millions per second; the last ratio is to the second over the same slices:\n"
    );
    println!(
        "| M | table | readings | proved | second | ratio | spread of the ratio | over slices |"
    );
    println!("|---|---|---|---|---|---|---|---|");
    for (name, course) in courses() {
        let pairs = step_pairs(LIBRARY, &course);
        let (proved, second) = (millions(pairs.one), millions(pairs.other));
        let (ratio, sliced) = (ratio_cells(&pairs.ratio), over_slices(&course));
        println!("| {name} | {proved:.2} | {second:.2} | {ratio} | {sliced:.2} |");
    }
}

/// The seconds of a piece of work.
fn seconds(mut work: impl FnMut()) -> f64 {
    let start = Instant::now();
    work();
    start.elapsed().as_secs_f64()
}

/// Bytes of journal per second, in one call each.
fn race_journals() {
    println!("\nJournals of about 65,000 bytes, 4 cells, in millions of bytes per second:\n");
    println!("| M | table | readings | proved | second | ratio | spread of the ratio |");
    println!("|---|---|---|---|---|---|---|");
    for (name, course) in courses() {
        let bytes = journal(&course);
        let mut room = vec![0; waterbook::book_room(bytes.len())];
        let length = raw::book(&bytes, &mut room);
        let same = room[..length] == second::journal::waterbook(&bytes)[..];
        assert!(same, "the two sides of the race answer alike");
        let proved = || {
            seconds(|| {
                black_box(raw::book(&bytes, &mut room));
            })
        };
        let second = || {
            seconds(|| {
                black_box(second::journal::waterbook(&bytes));
            })
        };
        let pairs = pairs(PAIRS, proved, second);
        let millions = |seconds: f64| bytes.len() as f64 / seconds / 1e6;
        let (proved, second) = (millions(pairs.one), millions(pairs.other));
        println!("| {name} | {proved:.1} | {second:.1} | {} |", ratio_cells(&pairs.ratio));
    }
}

/// The cost of a step as cells grow.
fn race_cells() {
    println!("\nCost of an accepted step as cells grow, M = 5, deep table, in nanoseconds:\n");
    println!("| cells | proved | second | ratio | spread of the ratio |");
    println!("|---|---|---|---|---|");
    for cells in [1, 2, 4, 8, 16, 32, 64, 128, 256] {
        let pairs = step_pairs(LIBRARY, &accepted(cells, 5, Table::Deep));
        let nanos = |seconds: f64| seconds * 1e9 / (READINGS * TIMES) as f64;
        let (proved, second) = (nanos(pairs.one), nanos(pairs.other));
        println!("| {cells} | {proved:.1} | {second:.1} | {} |", ratio_cells(&pairs.ratio));
    }
}

/// The cost of a refused step, number by number.
fn race_refusals() {
    println!(
        "\nCost of a refused step by its number, 4 cells, M = 5, in nanoseconds; the last ratio as above:\n"
    );
    println!("| number | proved | second | ratio | spread of the ratio | over slices |");
    println!("|---|---|---|---|---|---|");
    for number in (1..=10).chain([15, 17]) {
        let course = refused_with(number, 5);
        let pairs = step_pairs(LIBRARY, &course);
        let nanos = |seconds: f64| seconds * 1e9 / (READINGS * TIMES) as f64;
        let (proved, second) = (nanos(pairs.one), nanos(pairs.other));
        let (ratio, sliced) = (ratio_cells(&pairs.ratio), over_slices(&course));
        println!("| {number} | {proved:.1} | {second:.1} | {ratio} | {sliced:.2} |");
    }
}

/// The seconds of one run of a program over a journal.
fn run_of(program: &str, journal: &[u8]) -> f64 {
    seconds(|| {
        let child = Command::new(program).stdin(Stdio::piped()).stdout(Stdio::piped()).spawn();
        let mut child = child.expect("the program can be started");
        let mut input = child.stdin.take().expect("its input is a pipe");
        input.write_all(journal).expect("it reads its input");
        drop(input);
        let printed = child.wait_with_output().expect("it ends");
        assert!(!printed.stdout.is_empty(), "it prints a book");
    })
}

/// Whole runs of the two programs.
fn race_programs(waterbook: &str, second: &str) {
    println!(
        "\nWhole runs of the two programs over a journal of about 65,000 bytes, in milliseconds:\n"
    );
    println!("| M | table | readings | proved | second | ratio | spread of the ratio |");
    println!("|---|---|---|---|---|---|---|");
    for (name, table) in [("shallow", Table::Shallow), ("deep", Table::Deep)] {
        let bytes = journal(&accepted(4, 5, table));
        let pairs = pairs(PAIRS, || run_of(waterbook, &bytes), || run_of(second, &bytes));
        let (proved, second) = (pairs.one * 1e3, pairs.other * 1e3);
        let ratio = ratio_cells(&pairs.ratio);
        println!("| 5 | {name} | accepted | {proved:.2} | {second:.2} | {ratio} |");
    }
}

fn main() -> ExitCode {
    let words: Vec<String> = std::env::args().skip(1).collect();
    let [waterbook, second] = &words[..] else {
        eprintln!("usage: race WATERBOOK SECOND");
        return ExitCode::from(2);
    };
    println!(
        "Medians of {PAIRS} pairs of times; a ratio above 1 means that the proved build is faster;"
    );
    println!("its spread is from the lower to the upper quartile of the pairs.");
    race_steps();
    race_journals();
    race_cells();
    race_refusals();
    race_programs(waterbook, second);
    ExitCode::SUCCESS
}
