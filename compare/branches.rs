//! Which branches of the rules an accepted step went through.

use crate::heads;
use crate::tally::Tally;
use second::head::depth;
use second::numbers::{Amounts, Card, MOST, MOST_RAIN, Reading, slot_limit};
use second::rules::{curve_number, delay, storm_runoff};

/// The branches of the eleven steps that must be met.
pub const BRANCHES: &[&str] = &[
    "1 shift, no delays",
    "1 shift, nothing released",
    "1 shift, water released",
    "2 curve number, normal",
    "2 curve number, dry at a listed number",
    "2 curve number, dry between two",
    "2 curve number, dry above 95",
    "2 curve number, dry raised to 1",
    "2 curve number, wet at a listed number",
    "2 curve number, wet between two",
    "2 curve number, wet above 95",
    "3 storm runoff, X below 0",
    "3 storm runoff, X = 0",
    "3 storm runoff, X above 0",
    "4 delay, none on the card",
    "4 delay, table above the first depth",
    "4 delay, some depth",
    "4 delay, last depth",
    "4 delay, exactly at a depth",
    "4 delay, 1 µm above a depth",
    "5 runoff, table above the top",
    "5 runoff, table at the top",
    "5 runoff, pores fill",
    "5 runoff, pores exactly hold G",
    "5 runoff, pores hold more than G",
    "5 runoff, delay and less room than G",
    "5 runoff, delay and room",
    "6 etvad, G - runoff least",
    "6 etvad, pet least",
    "6 etvad, etmin + irrig least",
    "7 etstor, no lack",
    "7 etstor, lack over a table at or above the top",
    "7 etstor, lack and nothing waits",
    "7 etstor, lack drawn in full",
    "7 etstor, lack drawn in part",
    "8 etsat, table at or above the top",
    "8 etsat, table within etdepth",
    "8 etsat, table at etdepth",
    "8 etsat, table below etdepth",
    "9 drain, some",
    "9 drain, leak 0",
    "9 drain, less than 1 µm",
    "10 deposit, into a slot",
    "10 deposit, joins water in a slot",
    "10 deposit, fills a slot as far as it can",
    "10 deposit, nothing",
    "10 direct",
    "11 recharge above 0",
    "11 recharge 0",
    "11 recharge below 0",
    "11 recharge, septic and a delay",
];

/// How the storm's runoff goes: a line for each kind of share in range.
#[rustfmt::skip]
pub const STORMS: &[&str] = &[
    "5, X below 0", "5, X = 0", "5, X above 0 and no runoff", "5, runoff",
    "between, X below 0", "between, X = 0", "between, X above 0 and no runoff", "between, runoff",
    "20, X below 0", "20, X = 0", "20, X above 0 and no runoff", "20, runoff",
];

/// A step's card, the named cell's soil numbers, its row after the step, the reading and the answer.
pub struct Met<'a> {
    pub card: &'a Card,
    pub soil: &'a [i64],
    pub after: &'a [u32],
    pub reading: &'a Reading,
    pub answer: &'a Amounts,
}

/// Note the branches of an accepted step.
pub fn accepted(met: &Met, tally: &mut Tally) {
    let d = depth(met.soil[0], met.reading.head).unwrap_or(0);
    let k = delay(met.card, d);
    tally.meet("heads met by the head's check", heads::class(met.reading.head));
    for name in [shift(met), curve(met), storm(met), which_delay(met, k), runoff(met, d, k)] {
        tally.meet("branches", name);
    }
    for name in [etvad(met), etstor(met, d), etsat(met, d), recharge(met.answer)] {
        tally.meet("branches", name);
    }
    for name in near_a_depth(met, d).into_iter().chain(drain(met, d)).chain(deposit(met, k)) {
        tally.meet("branches", name);
    }
    tally.meet("storm runoff by share", storm_by_share(met));
    if met.reading.septic > 0 && k > 0 {
        tally.meet("branches", "11 recharge, septic and a delay");
    }
}

fn shift(met: &Met) -> &'static str {
    match (met.card.delays, met.answer.release) {
        (0, _) => "1 shift, no delays",
        (_, 0) => "1 shift, nothing released",
        _ => "1 shift, water released",
    }
}

fn curve(met: &Met) -> &'static str {
    match (met.reading.amc, met.soil[4]) {
        (2, _) => "2 curve number, normal",
        (1, 1) => "2 curve number, dry raised to 1",
        (1, cn) if cn % 5 == 0 => "2 curve number, dry at a listed number",
        (1, 96..) => "2 curve number, dry above 95",
        (1, _) => "2 curve number, dry between two",
        (_, cn) if cn % 5 == 0 => "2 curve number, wet at a listed number",
        (_, 96..) => "2 curve number, wet above 95",
        _ => "2 curve number, wet between two",
    }
}

/// The curve number of a step, its rain, and X of step 3.
fn c_rain_and_x(met: &Met) -> (i64, i64, i64) {
    let c = curve_number(met.soil[4], met.reading.amc);
    let (rain, share) = (i64::from(met.reading.rain), i64::from(met.card.share));
    (c, rain, c * rain - 2_540 * share * (100 - c))
}

fn storm(met: &Met) -> &'static str {
    match c_rain_and_x(met) {
        (_, _, 0) => "3 storm runoff, X = 0",
        (_, _, x) if x < 0 => "3 storm runoff, X below 0",
        _ => "3 storm runoff, X above 0",
    }
}

fn storm_by_share(met: &Met) -> &'static str {
    let (c, rain, x) = c_rain_and_x(met);
    let kind = match met.card.share {
        5 => 0,
        20 => 2,
        _ => 1,
    };
    let way = match x.cmp(&0) {
        std::cmp::Ordering::Less => 0,
        std::cmp::Ordering::Equal => 1,
        _ if storm_runoff(c, met.card.share.into(), rain) == 0 => 2,
        _ => 3,
    };
    STORMS[4 * kind + way]
}

fn which_delay(met: &Met, k: usize) -> &'static str {
    match (met.card.delays as usize, k) {
        (0, _) => "4 delay, none on the card",
        (_, 0) => "4 delay, table above the first depth",
        (m, k) if k < m => "4 delay, some depth",
        _ => "4 delay, last depth",
    }
}

fn near_a_depth(met: &Met, d: i64) -> Option<&'static str> {
    let has = |depth: i64| met.card.used().iter().any(|used| i64::from(*used) == depth);
    if has(d) {
        Some("4 delay, exactly at a depth")
    } else if has(d + 1) {
        Some("4 delay, 1 µm above a depth")
    } else {
        None
    }
}

fn runoff(met: &Met, d: i64, k: usize) -> &'static str {
    let g = i64::from(met.reading.rain) + i64::from(met.reading.irrig);
    let room = d.saturating_mul(met.soil[2]);
    match (d, k) {
        (0, _) => "5 runoff, table at the top",
        (d, _) if d < 0 => "5 runoff, table above the top",
        (_, 0) if room < 1000 * g => "5 runoff, pores fill",
        (_, 0) if room == 1000 * g => "5 runoff, pores exactly hold G",
        (_, 0) => "5 runoff, pores hold more than G",
        _ if room < 1000 * g => "5 runoff, delay and less room than G",
        _ => "5 runoff, delay and room",
    }
}

fn etvad(met: &Met) -> &'static str {
    let (r, a) = (met.reading, met.answer);
    let here = i64::from(r.rain) + i64::from(r.irrig) - a.runoff;
    let (pet, least) = (i64::from(r.pet), i64::from(r.etmin) + i64::from(r.irrig));
    if here < pet.min(least) {
        "6 etvad, G - runoff least"
    } else if pet < least {
        "6 etvad, pet least"
    } else {
        "6 etvad, etmin + irrig least"
    }
}

fn etstor(met: &Met, d: i64) -> &'static str {
    let lack = i64::from(met.reading.etmin) - met.answer.etvad;
    match met.answer.etstor {
        _ if lack <= 0 => "7 etstor, no lack",
        _ if d <= 0 => "7 etstor, lack over a table at or above the top",
        0 => "7 etstor, lack and nothing waits",
        drawn if drawn < lack => "7 etstor, lack drawn in part",
        _ => "7 etstor, lack drawn in full",
    }
}

fn etsat(met: &Met, d: i64) -> &'static str {
    match d.cmp(&met.soil[1]) {
        _ if d <= 0 => "8 etsat, table at or above the top",
        std::cmp::Ordering::Less => "8 etsat, table within etdepth",
        std::cmp::Ordering::Equal => "8 etsat, table at etdepth",
        std::cmp::Ordering::Greater => "8 etsat, table below etdepth",
    }
}

fn drain(met: &Met, d: i64) -> Option<&'static str> {
    match (met.soil[3], met.answer.drain) {
        _ if d >= 0 => None,
        (0, _) => Some("9 drain, leak 0"),
        (_, 0) => Some("9 drain, less than 1 µm"),
        _ => Some("9 drain, some"),
    }
}

fn deposit(met: &Met, k: usize) -> Option<&'static str> {
    let direct =
        met.answer.inflow - i64::from(met.reading.septic) - met.answer.runoff - met.answer.etvad;
    match (k, met.answer.stored) {
        (0, _) if direct > 0 => Some("10 direct"),
        (0, _) => None,
        (_, 0) => Some("10 deposit, nothing"),
        // The most that stood in the slot above by the row's range, and the most that a day brings.
        _ if met.after[1 + k] + MOST - MOST_RAIN == slot_limit(k as u32, met.card.delays) => {
            Some("10 deposit, fills a slot as far as it can")
        }
        (_, stored) if i64::from(met.after[1 + k]) > stored => {
            Some("10 deposit, joins water in a slot")
        }
        _ => Some("10 deposit, into a slot"),
    }
}

fn recharge(answer: &Amounts) -> &'static str {
    match answer.recharge {
        0 => "11 recharge 0",
        r if r < 0 => "11 recharge below 0",
        _ => "11 recharge above 0",
    }
}

/// The most rain that the first wetting takes whole, for a curve number and a share.
pub fn first_loss(c: i64, share: i64) -> i64 {
    2_540 * share * (100 - c) / c
}

/// Storm runoff exactly at an edge: the first rain that has any, for a curve number and a share, or one past the range.
pub fn rain_at_the_edge(c: i64, share: i64) -> i64 {
    let mut rain = first_loss(c, share);
    while storm_runoff(c, share, rain) == 0 && rain < i64::from(MOST_RAIN) {
        rain += 1;
    }
    rain
}
