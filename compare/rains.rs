//! Rain at its edges, beside every other fault of a reading, and the count that a refused one leaves open.

use crate::given::{Given, Slices, both, take};
use crate::tally::Tally;
use crate::waterbook::{ROW, SOIL};
use second::head::{DRY, INACTIVE, TEN_KILOMETRES};
use second::made::site::Site;
use second::numbers::{Card, Entry, Reading};
use second::sums::{MOST_SUMMED, Sums};

/// What the sweep over rains must meet.
pub const RAINS: &[&str] = &[
    "0",
    "8",
    "17",
    "9",
    "10",
    "15",
    "a gap behind it",
    "mended by a reading",
    "mended by a void",
];

/// Rains, each with the number that it gets by itself.
const EDGES: [(u32, u32); 8] = [
    (0, 0),
    (599_999, 0),
    (600_000, 0),
    (600_001, 17),
    (940_000, 17),
    (1_000_000, 17),
    (1_000_001, 8),
    (u32::MAX, 8),
];

/// What is done to a reading.
type Change = fn(&mut Reading);

/// Other fields at the ends of their ranges and beyond, each with its number.
const FIELDS: [(Change, u32); 7] = [
    (|_| {}, 0),
    (|reading| reading.irrig = 1_000_000, 0),
    (|reading| reading.irrig = 1_000_001, 8),
    (|reading| reading.septic = 1_000_001, 8),
    (|reading| reading.etmin = reading.pet + 1, 8),
    (|reading| reading.amc = 0, 8),
    (|reading| reading.amc = 4, 8),
];

/// Heads, each with its number.
const HEADS: [(u32, u32); 3] = [(DRY, 0), (TEN_KILOMETRES + 1, 9), (INACTIVE, 10)];

/// The numbers of a reading's figures, in the order of their checks.
const ORDER: [u32; 5] = [8, 17, 9, 10, 15];

/// A plot in life 3 with count 7 due, a day's water waiting, and its sums full or not.
fn plot(full: bool) -> Site {
    let mut card = Card { cells: 1, delays: 1, ..Card::BLANK };
    card.depths[0] = 1_000_000;
    let mut rows = vec![0; ROW];
    (rows[0], rows[1], rows[2]) = (3, 7, 55);
    if full {
        Sums { runoff: MOST_SUMMED, drainage: MOST_SUMMED }.write(&mut rows);
    }
    let soil: [i64; SOIL] = [10_000_000, 1_500_000, 200, 100_000, 80];
    Site { card, soil: soil.to_vec(), rows, usual: Vec::new() }
}

/// A dry day of that plot.
fn dry_day() -> Reading {
    let (life, count, etmin, pet) = (3, 7, 2000, 5000);
    Reading { life, count, etmin, pet, amc: 2, head: DRY, ..Reading::default() }
}

/// Every such rain beside every such field and head, with full sums and without.
pub fn at_edges(tally: &mut Tally) -> Result<(), String> {
    for (rain, by_rain) in EDGES {
        for ((change, by_field), (head, by_head)) in
            FIELDS.into_iter().flat_map(|field| HEADS.map(|head| (field, head)))
        {
            let mut reading = Reading { rain, head, ..dry_day() };
            change(&mut reading);
            for full in [false, true] {
                let by_sums = if full && rain > 0 { 15 } else { 0 };
                let numbers = [by_field, by_rain, by_head, by_sums];
                let wanted = ORDER.into_iter().find(|number| numbers.contains(number));
                given(&plot(full), reading, wanted.unwrap_or(0), tally)
                    .map_err(|what| format!("{reading:?}, full sums: {full}\n{what}"))?;
            }
        }
    }
    Ok(())
}

/// A reading that must get a number; refused, its count stays open until it is mended.
fn given(site: &Site, reading: Reading, wanted: u32, tally: &mut Tally) -> Result<(), String> {
    let name = RAINS.iter().find(|name| **name == wanted.to_string());
    let first = (Entry::Reading(reading), wanted, name.copied().unwrap_or("another number"));
    if wanted == 0 {
        return run(site, &[first], tally);
    }
    let gap = (Entry::Reading(Reading { count: 8, ..dry_day() }), 7, "a gap behind it");
    let next = (gap.0, 0, "0");
    let mends = [
        (Entry::Reading(dry_day()), 0, "mended by a reading"),
        (Entry::Void(reading.turn()), 0, "mended by a void"),
    ];
    mends.into_iter().try_for_each(|mend| run(site, &[first, gap, mend, next], tally))
}

/// Entries one after the other by both, each with the number that it must get.
fn run(
    site: &Site,
    entries: &[(Entry, u32, &'static str)],
    tally: &mut Tally,
) -> Result<(), String> {
    let mut given = Given::by(site);
    let mut slices = Slices::lend(&given);
    for (entry, wanted, name) in entries {
        take(&mut given, &mut slices, entry);
        let number = both(&mut given, &mut slices, tally)?;
        if number != *wanted {
            return Err(format!("{entry:?} got {number} and not {wanted}"));
        }
        tally.meet("every edge of rain", name);
    }
    Ok(())
}
