//! Sums kept in rows: what steps add to them, the edges of both, and the checks that come before the sums' own.

use crate::given::{Given, Slices, both, take};
use crate::lent::Lent;
use crate::numbers::reading_numbers;
use crate::tally::Tally;
use crate::waterbook::{AMOUNTS, OLD_ROW, ROW, SOIL};
use crate::{collects, moves};
use second::head::{DRY, INACTIVE, TEN_KILOMETRES};
use second::made::site::Site;
use second::numbers::{Amounts, Card, Entry, MOST, MOST_RAIN, Reading, Void};
use second::sums::{MOST_SUMMED, Sums};

/// What accepted steps must have done to the sums.
pub const ADDED: &[&str] = &[
    "runoff, none",
    "runoff, without a carry",
    "runoff, with a carry",
    "runoff, up to 10^18",
    "drainage, none",
    "drainage, without a carry",
    "drainage, with a carry",
    "drainage, up to 10^18",
    "drainage, of more than 32 bits",
];

/// The sums that a cell's row holds, if there is such a row.
pub fn held(rows: &[u32], cell: u32) -> Option<Sums> {
    let start = ROW.saturating_mul(cell as usize);
    rows.get(start..start.saturating_add(ROW)).map(Sums::of)
}

/// Note what an accepted step added to the sums that its row held before.
pub fn added(before: Option<Sums>, answer: &Amounts, tally: &mut Tally) {
    let Some(before) = before else { return };
    let (runoff, drain) = (answer.runoff as u64, answer.drain as u64);
    for (first, sum, more) in [(0, before.runoff, runoff), (4, before.drainage, drain)] {
        let way = match more {
            0 => 0,
            _ if sum >> 32 == (sum + more) >> 32 => 1,
            _ => 2,
        };
        tally.meet("added to the sums", ADDED[first + way]);
        if more > 0 && sum + more == MOST_SUMMED {
            tally.meet("added to the sums", ADDED[first + 3]);
        }
    }
    if drain >> 32 > 0 {
        tally.meet("added to the sums", "drainage, of more than 32 bits");
    }
}

/// Which sum a refused step would have put past its limit: by what it reports over the same row with sums of 0.
pub fn passed(card: &Card, soil: &[i64], rows: &[u32], reading: &Reading) -> &'static str {
    let (mut emptied, start) = (rows.to_vec(), ROW * reading.cell as usize);
    let held = Sums::of(&rows[start..]);
    Sums::default().write(&mut emptied[start..]);
    let (_, answer) = second::step::step(card, soil, &mut emptied, reading);
    let passes = |sum: u64, more: i64| sum + more as u64 > MOST_SUMMED;
    match (passes(held.runoff, answer.runoff), passes(held.drainage, answer.drain)) {
        (true, true) => "15 both",
        (true, false) => "15 runoff",
        _ => "15 drainage",
    }
}

/// What the sweep over the edges of sums must meet.
pub const EDGES: &[&str] = &[
    "step 0",
    "step 5",
    "step 15",
    "void 0",
    "void 5",
    "collect 0",
    "collect 5",
    "shrink 5",
    "shrink 16",
];

/// A day whose runoff and drain are known.
struct Day {
    reading: Reading,
    plot: [i64; SOIL],
    adds: Sums,
}

/// Days with none of either, with runoff alone, with both, and with the most of both.
fn days() -> [Day; 4] {
    let plot = [10_000_000, 1_500_000, 200, 100_000, 80];
    let storm = Reading { cell: 1, rain: 50_800, amc: 2, head: DRY, ..Reading::default() };
    let flood = Reading { head: 10.5f32.to_bits(), ..storm };
    let deluge = Reading { rain: MOST_RAIN, irrig: MOST, head: TEN_KILOMETRES, ..storm };
    let sea = [-10_000_000_000, 1, 1, 1_000_000, 1];
    let adds = |runoff, drainage| Sums { runoff, drainage };
    [
        Day { reading: Reading { rain: 0, ..storm }, plot, adds: adds(0, 0) },
        Day { reading: storm, plot, adds: adds(14_287, 0) },
        Day { reading: flood, plot, adds: adds(50_800, 50_000) },
        Day { reading: deluge, plot: sea, adds: adds(1_600_000, 20_000_000_000) },
    ]
}

/// Sums about which something changes where so much is added: at a carry, at 10^18, and far beyond.
fn edges(more: u64) -> Vec<u64> {
    let mut sums = vec![0, 1, 1 << 63, u64::MAX];
    for edge in [1 << 32, 9 << 32, (MOST_SUMMED >> 32) << 32, MOST_SUMMED] {
        let so_far = [more + 1, more, more.saturating_sub(1)].into_iter();
        sums.extend(so_far.filter_map(|more| u64::checked_sub(edge, more)));
        sums.extend([edge - 1, edge, edge + 1]);
    }
    sums.sort();
    sums.dedup();
    sums
}

/// A site of three cells with a delay and water that waits, and sums of their own in the outer two.
fn three(plot: &[i64; SOIL], middle: Sums) -> Site {
    let mut card = Card { cells: 3, delays: 1, ..Card::BLANK };
    card.depths[0] = 1_000_000;
    let mut rows = vec![0; 3 * ROW];
    let outer = Sums { runoff: (5 << 32) + 6, drainage: (7 << 32) + 8 };
    for (row, sums) in rows.chunks_mut(ROW).zip([outer, middle, outer]) {
        row[2] = 77;
        sums.write(row);
    }
    Site { card, soil: plot.repeat(3), rows, usual: Vec::new() }
}

/// Every edge of both sums under every such day: a step, a void, a collection and a move back.
pub fn at_edges(tally: &mut Tally) -> Result<(), String> {
    for day in days() {
        for runoff in edges(day.adds.runoff) {
            for drainage in edges(day.adds.drainage) {
                let before = Sums { runoff, drainage };
                at_edge(&day, before, tally)
                    .map_err(|what| format!("{before:?}, with {:?}\n{what}", day.adds))?;
            }
        }
    }
    Ok(())
}

/// One edge under one day: the number and the sums that each call must leave in the middle cell.
fn at_edge(day: &Day, before: Sums, tally: &mut Tally) -> Result<(), String> {
    let site = three(&day.plot, before);
    let sound = before.runoff <= MOST_SUMMED && before.drainage <= MOST_SUMMED;
    let refused = if sound { 0 } else { 5 };
    let stepped = entered(&site, &Entry::Reading(day.reading), tally)?;
    wanted("step", stepped, should(sound, before, day.adds), tally)?;
    let voided = entered(&site, &Entry::Void(Void { cell: 1, life: 0, count: 0 }), tally)?;
    wanted("void", voided, (refused, before), tally)?;
    let (number, left, given) = collected(&site, tally)?;
    let (rest, taken) = if sound { (Sums::default(), before) } else { (before, Sums::default()) };
    wanted("collect", (number, left), (refused, rest), tally)?;
    wanted("collect", (number, given), (refused, taken), tally)?;
    // The outer cells hold something, so that the site cannot go back.
    let number = moves::both(&mut moves::Given::by(&site, moves::Way::Back), tally)?;
    wanted("shrink", (number, before), (if sound { 16 } else { 5 }, before), tally)
}

/// The number of a step that adds so much to the sums of a row, and the sums that the row has then.
fn should(sound: bool, before: Sums, adds: Sums) -> (u32, Sums) {
    let [runoff, drainage] = [(before.runoff, adds.runoff), (before.drainage, adds.drainage)]
        .map(|(sum, more)| sum.checked_add(more).filter(|sum| *sum <= MOST_SUMMED));
    match (runoff, drainage) {
        _ if !sound => (5, before),
        (Some(runoff), Some(drainage)) => (0, Sums { runoff, drainage }),
        _ => (15, before),
    }
}

/// An entry of the middle cell by both: its number, and the sums of that cell then.
fn entered(site: &Site, entry: &Entry, tally: &mut Tally) -> Result<(u32, Sums), String> {
    let mut given = Given::by(site);
    let mut slices = Slices::lend(&given);
    take(&mut given, &mut slices, entry);
    let number = both(&mut given, &mut slices, tally)?;
    Ok((number, Sums::of(&given.rows[ROW..])))
}

/// The middle cell collected by both: its number, the sums of that cell then, and the sums given.
fn collected(site: &Site, tally: &mut Tally) -> Result<(u32, Sums, Sums), String> {
    let mut given = collects::Given::by(site, 1);
    let mut rows = Lent::new(&given.rows, 0x5a5a_5a5a);
    let number = collects::both(&mut given, &mut rows, tally)?;
    let sums = Sums { runoff: given.sums[0], drainage: given.sums[1] };
    Ok((number, Sums::of(&given.rows[ROW..]), sums))
}

/// A call's number and the sums that it came to, as they should be.
fn wanted(
    call: &str,
    came: (u32, Sums),
    should: (u32, Sums),
    tally: &mut Tally,
) -> Result<(), String> {
    if came != should {
        return Err(format!("{call} came to {came:?} and not to {should:?}"));
    }
    let name = format!("{call} {}", came.0);
    let listed = EDGES.iter().find(|listed| **listed == name);
    tally.meet("sums at an edge", listed.copied().unwrap_or("another number"));
    Ok(())
}

/// What must be met over full sums, the last check first.
pub const BEFORE: &[&str] = &["15", "10", "9", "17", "8", "7", "6", "5", "4", "3", "2", "1", "255"];

/// One more fault in what is given.
type Fault = fn(&mut Given);

/// Faults from the last check to the first, each with its number.
const FAULTS: [(u32, Fault); 12] = [
    (10, |given| given.entry[9] = INACTIVE),
    (9, |given| given.entry[9] = TEN_KILOMETRES + 1),
    (17, |given| given.entry[3] = MOST_RAIN + 1),
    (8, |given| given.entry[8] = 4),
    (7, |given| given.entry[2] = 1),
    (6, |given| given.rows[ROW] = 1),
    (5, |given| given.rows[ROW + OLD_ROW - 1] = 1),
    (4, |given| given.soil[SOIL + 4] = 101),
    (3, |given| given.entry[0] = 3),
    (2, |given| given.rows.truncate(3 * ROW - 1)),
    (1, |given| given.card[2] = 0),
    (255, |given| given.amounts.resize(AMOUNTS + 1, 0)),
];

/// Full sums, and a reading that would pass both: each fault by itself, and with all those of later checks.
pub fn before_15(tally: &mut Tally) -> Result<(), String> {
    let [.., day] = days();
    let full = Sums { runoff: MOST_SUMMED, drainage: MOST_SUMMED };
    let mut given = Given::by(&three(&day.plot, full));
    given.entry = reading_numbers(&day.reading).to_vec();
    let clean = given.clone();
    refused(&given, 15, BEFORE[0], tally)?;
    for ((number, fault), name) in FAULTS.into_iter().zip(&BEFORE[1..]) {
        let mut alone = clean.clone();
        fault(&mut alone);
        fault(&mut given);
        refused(&alone, number, name, tally)?;
        refused(&given, number, name, tally)?;
    }
    Ok(())
}

/// A step by both that must be refused with a number.
fn refused(
    given: &Given,
    wanted: u32,
    name: &'static str,
    tally: &mut Tally,
) -> Result<(), String> {
    let mut asked = given.clone();
    let mut slices = Slices::lend(&asked);
    let number = both(&mut asked, &mut slices, tally)?;
    if number != wanted {
        return Err(format!("refused with {number} and not with {wanted}\n{given:?}"));
    }
    tally.meet("over full sums", name);
    Ok(())
}
