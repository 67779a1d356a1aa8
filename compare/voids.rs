//! Voids: what accepted ones came to, and full queues that they empty.

use crate::given::{Given, Slices, both, take};
use crate::steps::site_of_delays;
use crate::tally::Tally;
use second::numbers::{Amounts, Card, Entry, Void, slot_limit};
use second::sums::{MOST_SUMMED, Sums};

/// What accepted voids must be met for.
pub const VOIDS: &[&str] = &[
    "no delays",
    "nothing released",
    "water released",
    "nothing waits afterwards",
    "water waits afterwards",
    "the same life",
    "a new life",
    "the last count",
    "share 5",
    "share between",
    "share 20",
    "sums of 0",
    "sums that are not 0",
    "a sum of 10^18",
];

/// Note what an accepted void came to, given the life that its row had before.
pub fn accepted(card: &Card, life: Option<u32>, void: &Void, answer: &Amounts, tally: &mut Tally) {
    let released = match (card.delays, answer.release) {
        (0, _) => "no delays",
        (_, 0) => "nothing released",
        _ => "water released",
    };
    let waits =
        if answer.left == 0 { "nothing waits afterwards" } else { "water waits afterwards" };
    let turn = if life == Some(void.life) { "the same life" } else { "a new life" };
    let share = match card.share {
        5 => "share 5",
        20 => "share 20",
        _ => "share between",
    };
    for name in [released, waits, turn, share] {
        tally.meet("voids", name);
    }
    if void.count == 999_999 {
        tally.meet("voids", "the last count");
    }
}

/// Note what sums an accepted void was given over; it keeps them.
pub fn kept(before: Option<Sums>, tally: &mut Tally) {
    let Some(before) = before else { return };
    let none = before == Sums::default();
    tally.meet("voids", if none { "sums of 0" } else { "sums that are not 0" });
    if before.runoff == MOST_SUMMED || before.drainage == MOST_SUMMED {
        tally.meet("voids", "a sum of 10^18");
    }
}

/// What the sweep over every full queue must meet.
pub const QUEUES: &[&str] = &["a full slot released", "nothing left to release"];

/// Full queues of every number of delays: each void releases the water that was due next, the last finds none.
pub fn queues(tally: &mut Tally) -> Result<(), String> {
    for delays in 0..=30 {
        let mut site = site_of_delays(delays);
        for k in 1..=delays {
            site.rows[1 + k as usize] = slot_limit(k, delays);
        }
        let mut given = Given::by(&site);
        let mut slices = Slices::lend(&given);
        for count in 0..=delays {
            take(&mut given, &mut slices, &Entry::Void(Void { cell: 0, life: 0, count }));
            let at = |what| format!("void {count} of a full queue, {delays} delays\n{what}");
            let number = both(&mut given, &mut slices, tally).map_err(at)?;
            if (number, &given.amounts[..]) != (0, &emptied(delays, count)[..]) {
                return Err(at(format!("number {number}, amounts {:?}", given.amounts)));
            }
            tally.meet("every full queue", QUEUES[usize::from(count == delays)]);
        }
    }
    Ok(())
}

/// The amounts of a void after so many others over a full queue: the slots behind it hold 2, 4, 6 .. million µm.
fn emptied(delays: u32, before: u32) -> [i64; 10] {
    let waiting = i64::from(delays - before);
    let (release, left) = (2_000_000 * waiting, 1_000_000 * waiting * (waiting - 1));
    [0, 0, 0, 0, 0, 0, release, 0, release, left]
}
