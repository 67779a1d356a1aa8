//! What steps, voids and clearings were refused for.

use crate::heads;
use crate::sums;
use crate::tally::Tally;
use crate::waterbook::{OLD_ROW, ROW, SHARE_AT, SOIL};
use second::numbers::{Card, Reading, Turn, slot_limit, turn_in_range};
use second::sums::{MOST_SUMMED, Sums};

/// What must be refused of its card in every call that looks at ranges.
pub const CARDS: &[&str] = &[
    "1 cells",
    "1 delays",
    "1 depth 0",
    "1 depth too large",
    "1 depths equal",
    "1 depths falling",
    "1 unused place",
    "1 share below 5",
    "1 share above 20",
    "255 card",
    "255 card without its share",
];

/// What must be refused of a row with sums.
pub const ROWS: &[&str] = &[
    "5 life",
    "5 next count",
    "5 slot above its limit",
    "5 slot above M",
    "5 runoff above 10^18",
    "5 drainage above 10^18",
];

/// What must be refused of steps and of voids alike, beside cards and rows: slices, plots and turns.
pub const TURNS: &[&str] = &[
    "2 soil short",
    "2 soil long",
    "2 rows short",
    "2 rows long",
    "2 rows without sums",
    "3 cell",
    "4 top low",
    "4 top high",
    "4 etdepth low",
    "4 etdepth high",
    "4 vadpor low",
    "4 vadpor high",
    "4 leak low",
    "4 leak high",
    "4 cn low",
    "4 cn high",
    "6 life lower",
    "6 count lower",
    "7 count higher",
    "7 life higher and count not 0",
    "8 life",
    "8 count",
    "255 reading or void",
    "255 amounts",
];

/// What clearings must come to beside that: done on each kind of share, or refused.
pub const CLEARINGS: &[&str] = &[
    "0 share 5",
    "0 share between",
    "0 share 20",
    "2 rows short",
    "2 rows long",
    "2 rows without sums",
];

/// What must be refused of steps alone: a reading's figures, its head, and what it would add to the sums.
pub const FIGURES: &[&str] = &[
    "8 rain",
    "8 irrig",
    "8 septic",
    "8 etmin",
    "8 pet",
    "8 etmin above pet",
    "8 amc 0",
    "8 amc above 3",
    "17 rain",
    "9 head",
    "10 head",
    "15 runoff",
    "15 drainage",
    "15 both",
];

/// What a turn was refused for; the slices are as they were lent.
pub fn turn_fault(
    number: u32,
    card: &Card,
    soil: &[i64],
    rows: &[u32],
    turn: &Turn,
) -> &'static str {
    let cell = turn.cell as usize;
    match number {
        1 => card_fault(card),
        2 => length_fault(card, soil, rows),
        3 => "3 cell",
        4 => soil_fault(&soil[SOIL * cell..SOIL * (cell + 1)]),
        5 => row_fault(&rows[ROW * cell..ROW * (cell + 1)], card.delays),
        6 if turn.life < rows[ROW * cell] => "6 life lower",
        6 => "6 count lower",
        7 if turn.life > rows[ROW * cell] => "7 life higher and count not 0",
        7 => "7 count higher",
        _ if turn.life > 65_535 => "8 life",
        _ => "8 count",
    }
}

/// Note what a refused step was refused for; the slices are as they were lent.
pub fn refused(
    number: u32,
    card: &Card,
    soil: &[i64],
    rows: &[u32],
    r: &Reading,
    tally: &mut Tally,
) {
    if matches!(number, 9 | 10 | 15) {
        tally.meet("heads met by the head's check", heads::class(r.head));
    }
    if number < 8 || (number == 8 && !turn_in_range(&r.turn())) {
        tally.meet("refused for", turn_fault(number, card, soil, rows, &r.turn()));
    } else if number == 15 {
        tally.meet("refused for its figures", sums::passed(card, soil, rows, r));
    } else {
        tally.meet("refused for its figures", figure_fault(number, r));
    }
}

/// What a clearing came to.
pub fn clearing(number: u32, card: &Card, rows: usize) -> &'static str {
    match (number, card.share) {
        (0, 5) => "0 share 5",
        (0, 20) => "0 share 20",
        (0, _) => "0 share between",
        (1, _) => card_fault(card),
        _ => rows_fault(card, rows),
    }
}

/// How a card that has not its count of numbers is refused.
pub fn card_count(numbers: usize) -> &'static str {
    if numbers == SHARE_AT { "255 card without its share" } else { "255 card" }
}

/// What is wrong with a card; its share only where nothing else is.
pub fn card_fault(card: &Card) -> &'static str {
    if !(1..=256).contains(&card.cells) {
        return "1 cells";
    }
    if card.delays > 30 {
        return "1 delays";
    }
    let used = card.used();
    if used.contains(&0) {
        "1 depth 0"
    } else if used.iter().any(|depth| *depth > 1_000_000_000) {
        "1 depth too large"
    } else if used.windows(2).any(|two| two[0] > two[1]) {
        "1 depths falling"
    } else if used.windows(2).any(|two| two[0] == two[1]) {
        "1 depths equal"
    } else if card.unused().iter().any(|depth| *depth != 0) {
        "1 unused place"
    } else if card.share < 5 {
        "1 share below 5"
    } else {
        "1 share above 20"
    }
}

fn length_fault(card: &Card, soil: &[i64], rows: &[u32]) -> &'static str {
    let cells = card.cells as usize;
    match soil.len() {
        length if length < SOIL * cells => "2 soil short",
        length if length > SOIL * cells => "2 soil long",
        _ => rows_fault(card, rows.len()),
    }
}

/// What is wrong with the length of a site's rows.
pub fn rows_fault(card: &Card, length: usize) -> &'static str {
    let cells = card.cells as usize;
    match length {
        length if length == OLD_ROW * cells => "2 rows without sums",
        length if length < ROW * cells => "2 rows short",
        _ => "2 rows long",
    }
}

fn soil_fault(soil: &[i64]) -> &'static str {
    const RANGES: [(i64, i64, &str, &str); 5] = [
        (-10_000_000_000, 10_000_000_000, "4 top low", "4 top high"),
        (1, 100_000_000, "4 etdepth low", "4 etdepth high"),
        (1, 1000, "4 vadpor low", "4 vadpor high"),
        (0, 1_000_000, "4 leak low", "4 leak high"),
        (1, 100, "4 cn low", "4 cn high"),
    ];
    for (number, (low, high, below, above)) in soil.iter().zip(RANGES) {
        if *number < low {
            return below;
        }
        if *number > high {
            return above;
        }
    }
    "no soil number is out of range"
}

/// What is wrong with a row, with sums or without; its sums only where nothing else is.
pub fn row_fault(row: &[u32], delays: u32) -> &'static str {
    if row[0] > 65_535 {
        "5 life"
    } else if row[1] > 1_000_000 {
        "5 next count"
    } else if row[2 + delays as usize..OLD_ROW].iter().any(|slot| *slot > 0) {
        "5 slot above M"
    } else if (1..=delays).any(|k| row[1 + k as usize] > slot_limit(k, delays)) {
        "5 slot above its limit"
    } else if Sums::of(row).runoff > MOST_SUMMED {
        "5 runoff above 10^18"
    } else {
        "5 drainage above 10^18"
    }
}

fn figure_fault(number: u32, r: &Reading) -> &'static str {
    let figures = [
        (r.rain, 1_000_000, "8 rain"),
        (r.irrig, 1_000_000, "8 irrig"),
        (r.septic, 1_000_000, "8 septic"),
        (r.etmin, 1_000_000, "8 etmin"),
        (r.pet, 1_000_000, "8 pet"),
        (r.amc, 3, "8 amc above 3"),
    ];
    match figures.iter().find(|(figure, most, _)| figure > most) {
        _ if number == 9 => "9 head",
        _ if number == 10 => "10 head",
        _ if number == 17 => "17 rain",
        Some((_, _, name)) => name,
        None if r.amc == 0 => "8 amc 0",
        None => "8 etmin above pet",
    }
}
