//! "Refusal numbers, in the order of the checks": clearing, and the site's readings and voids, by any engine.

use crate::head::{depth, head, Head};
use crate::numbers::{fields_in_range, soil_in_range, turn_in_range};
use crate::numbers::{Amounts, Card, Entry, Reading, Turn, Void, MOST_RAIN, SOIL};
use crate::queue::{Queue, Slots};
use crate::rules::{day, void_day};
use crate::sums::Sums;

/// Set all rows of the site to 0; knows numbers 1 and 2 only.
pub fn clear(card: &Card, rows: &mut [u32]) -> u32 {
    clear_by::<Slots>(card, rows)
}

/// One entry of the site, a reading or a void: its number and its ten amounts.
pub fn enter(card: &Card, soil: &[i64], rows: &mut [u32], entry: &Entry) -> (u32, Amounts) {
    enter_by::<Slots>(card, soil, rows, entry)
}

/// One reading of the site: its number and its ten amounts.
pub fn step(card: &Card, soil: &[i64], rows: &mut [u32], r: &Reading) -> (u32, Amounts) {
    step_by::<Slots>(card, soil, rows, r)
}

/// One void of the site: its number and its ten amounts.
pub fn void(card: &Card, soil: &[i64], rows: &mut [u32], v: &Void) -> (u32, Amounts) {
    void_by::<Slots>(card, soil, rows, v)
}

/// The number that the checks of a reading give, but for the sums'.
pub fn check(card: &Card, soil: &[i64], rows: &[u32], r: &Reading) -> u32 {
    check_by::<Slots>(card, soil, rows, r)
}

/// The number that the checks of a void give.
pub fn check_void(card: &Card, soil: &[i64], rows: &[u32], v: &Void) -> u32 {
    check_void_by::<Slots>(card, soil, rows, v)
}

/// Clearing by an engine.
pub fn clear_by<Q: Queue>(card: &Card, rows: &mut [u32]) -> u32 {
    if !card.in_range() {
        return 1;
    }
    if rows.len() != Q::ROW * card.cells as usize {
        return 2;
    }
    rows.fill(0);
    0
}

/// One entry by an engine.
pub fn enter_by<Q: Queue>(
    card: &Card,
    soil: &[i64],
    rows: &mut [u32],
    entry: &Entry,
) -> (u32, Amounts) {
    match entry {
        Entry::Reading(reading) => step_by::<Q>(card, soil, rows, reading),
        Entry::Void(notice) => void_by::<Q>(card, soil, rows, notice),
    }
}

/// One reading by an engine.
pub fn step_by<Q: Queue>(
    card: &Card,
    soil: &[i64],
    rows: &mut [u32],
    r: &Reading,
) -> (u32, Amounts) {
    let number = check_by::<Q>(card, soil, rows, r);
    if number != 0 {
        return (number, Amounts::default());
    }
    let cell = r.cell as usize;
    let plot = &soil[SOIL * cell..SOIL * (cell + 1)];
    let row = &mut rows[Q::ROW * cell..Q::ROW * (cell + 1)];
    match depth(plot[0], r.head) {
        Some(d) => accept(row, r.turn(), |queue: &mut Q| day(card, plot, queue, r, d)),
        None => unreachable!("checks 9 and 10 let only levels and dry heads by"),
    }
}

/// One void by an engine.
pub fn void_by<Q: Queue>(card: &Card, soil: &[i64], rows: &mut [u32], v: &Void) -> (u32, Amounts) {
    let refused = check_void_by::<Q>(card, soil, rows, v);
    if refused != 0 {
        return (refused, Amounts::default());
    }
    let cell = v.cell as usize;
    let row = &mut rows[Q::ROW * cell..Q::ROW * (cell + 1)];
    accept(row, *v, |queue: &mut Q| void_day(card, queue))
}

/// The checks of a reading in their order, but for the sums', which comes last; the first one met gives the number.
fn check_by<Q: Queue>(card: &Card, soil: &[i64], rows: &[u32], r: &Reading) -> u32 {
    match check_site::<Q>(card, soil, rows, &r.turn()) {
        0 => check_fields(r),
        number => number,
    }
}

/// The checks of a void: 1 to 7, and of check 8 the ranges of life and count.
fn check_void_by<Q: Queue>(card: &Card, soil: &[i64], rows: &[u32], v: &Void) -> u32 {
    match check_site::<Q>(card, soil, rows, v) {
        0 if !turn_in_range(v) => 8,
        number => number,
    }
}

/// Checks 1 to 7, the same for a reading and a void.
fn check_site<Q: Queue>(card: &Card, soil: &[i64], rows: &[u32], turn: &Turn) -> u32 {
    if !card.in_range() {
        return 1;
    }
    let cells = card.cells as usize;
    if soil.len() != SOIL * cells || rows.len() != Q::ROW * cells {
        return 2;
    }
    if turn.cell >= card.cells {
        return 3;
    }
    let cell = turn.cell as usize;
    if !soil_in_range(&soil[SOIL * cell..SOIL * (cell + 1)]) {
        return 4;
    }
    let row = &rows[Q::ROW * cell..Q::ROW * (cell + 1)];
    if !Q::row_in_range(row, card.delays) {
        return 5;
    }
    check_turn(row[0], row[1], turn)
}

/// Checks 6 and 7: is the claimed turn the one that is due?
fn check_turn(life: u32, next: u32, turn: &Turn) -> u32 {
    if turn.life < life || (turn.life == life && turn.count < next) {
        6
    } else if (turn.life == life && turn.count > next) || (turn.life > life && turn.count != 0) {
        7
    } else {
        0
    }
}

/// Checks 8, 17, 9 and 10: the reading's fields, a jammed bucket, then the head.
fn check_fields(r: &Reading) -> u32 {
    if !fields_in_range(r) {
        return 8;
    }
    if r.rain > MOST_RAIN {
        return 17;
    }
    match head(r.head) {
        Head::Unusable => 9,
        Head::Inactive => 10,
        Head::Dry | Head::Level(_) => 0,
    }
}

/// Work a day into the row of its cell and use up its turn: its number and its ten amounts.
/// Check 15: where a sum would pass its limit the row stays. A void has no runoff and no drain, so it never meets it.
fn accept<Q: Queue>(
    row: &mut [u32],
    turn: Turn,
    day: impl FnOnce(&mut Q) -> Amounts,
) -> (u32, Amounts) {
    let mut queue = Q::of(row);
    let amounts = day(&mut queue);
    let Some(sums) = Sums::of(row).with(&amounts) else {
        return (15, Amounts::default());
    };
    row[0] = turn.life;
    row[1] = turn.count + 1;
    queue.write(row);
    sums.write(row);
    (0, amounts)
}
