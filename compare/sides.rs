//! What calls on outboxes in form came to: what was done, what changed nothing, what was refused.

use crate::forms::{form_fault, in_form, shape_faults};
use crate::outbox::NOT_THE_SHAPE;
use crate::outboxes::Given;
use crate::tally::Tally;
use second::made::outboxes::Call;
use second::numbers::Entry;
use second::outbox::Outbox;

/// What fresh outboxes must come to.
pub const FRESH: &[&str] = &[
    "over an outbox in form",
    "over anything else",
    "cell 255",
    "14 cell 256",
    "14 cell above 256",
];

/// What offers, and replacements, must find to be the oldest.
pub const OLDEST: &[&str] =
    &["a reading", "a void", "the only one held", "one of some", "one of 30", "254 none held"];

/// What entries to add must come to.
pub const ADDED: &[&str] = &[
    "a reading",
    "a void",
    "to none held",
    "to 29 held",
    "count 0",
    "count 999,999",
    "14 cell",
    "14 life lower",
    "14 life higher",
    "14 count lower",
    "14 count higher",
    "14 count 1,000,000",
    "14 and 30 held",
    "13 a reading",
    "13 a void",
];

/// What acknowledgements must come to.
pub const HEARD: &[&str] = &[
    "one removed",
    "more removed, more left",
    "one left",
    "all removed",
    "30 removed",
    "another life, lower",
    "another life, higher",
    "below the oldest",
    "at the oldest",
    "one past the next",
    "further past the next",
    "none held",
];

/// What battery swaps must come to.
pub const SWAPS: &[&str] = &[
    "none held",
    "entries dropped",
    "to the life after",
    "to life 65,535",
    "14 lower",
    "14 the same",
    "14 to life 65,536",
    "14 to a life above that",
];

/// Note what a call came to, by what it was given and its number.
pub fn meet(given: &Given, number: u32, tally: &mut Tally) {
    let outbox = in_form(&given.outbox);
    let (heading, names) = match (&outbox, given.call) {
        _ if number == NOT_THE_SHAPE => ("outboxes or entries out of shape", shape_faults(given)),
        _ if number == 23 => ("outboxes out of form", vec![form_fault(&given.outbox)]),
        (_, Call::Fresh { cell }) => ("fresh outboxes", fresh(cell, outbox.is_some())),
        (Some(outbox), Call::Offer) => ("oldest entries offered", oldest(outbox)),
        (Some(outbox), Call::Replace) => ("oldest entries replaced", oldest(outbox)),
        (Some(outbox), Call::Add) => ("entries added", added(outbox, &given.entry, number)),
        (Some(outbox), Call::Acknowledge { life, count }) => {
            ("acknowledgements", acknowledged(outbox, life, count))
        }
        (Some(outbox), Call::Swap { life }) => ("battery swaps", swapped(outbox, life)),
        (None, _) => ("outboxes out of form", vec!["not refused"]),
    };
    for name in names {
        tally.meet(heading, name);
    }
}

/// The names of what is so.
fn those(met: &[(bool, &'static str)]) -> Vec<&'static str> {
    met.iter().filter(|(so, _)| *so).map(|(_, name)| *name).collect()
}

/// A fresh outbox.
fn fresh(cell: u32, in_form: bool) -> Vec<&'static str> {
    those(&[
        (cell <= 255 && in_form, "over an outbox in form"),
        (cell <= 255 && !in_form, "over anything else"),
        (cell == 255, "cell 255"),
        (cell == 256, "14 cell 256"),
        (cell > 256, "14 cell above 256"),
    ])
}

/// The oldest entry, offered or replaced.
fn oldest(outbox: &Outbox) -> Vec<&'static str> {
    let kind = match outbox.unheard.front() {
        Some(Entry::Reading(_)) => "a reading",
        Some(Entry::Void(_)) => "a void",
        None => return vec!["254 none held"],
    };
    let among = match outbox.unheard.len() {
        1 => "the only one held",
        30 => "one of 30",
        _ => "one of some",
    };
    vec![kind, among]
}

/// A new entry, taken or refused.
fn added(outbox: &Outbox, entry: &[u32], number: u32) -> Vec<&'static str> {
    let (reading, count, held) = (entry[0] == 0, entry[3], outbox.unheard.len());
    match number {
        13 if reading => vec!["13 a reading"],
        13 => vec!["13 a void"],
        14 if held == 30 => vec![turn_fault(outbox, &entry[1..4]), "14 and 30 held"],
        14 => vec![turn_fault(outbox, &entry[1..4])],
        _ => those(&[
            (reading, "a reading"),
            (!reading, "a void"),
            (held == 0, "to none held"),
            (held == 29, "to 29 held"),
            (count == 0, "count 0"),
            (count == 999_999, "count 999,999"),
        ]),
    }
}

/// Why a new entry's turn is not the next.
fn turn_fault(outbox: &Outbox, turn: &[u32]) -> &'static str {
    let (life, count) = (turn[1], turn[2]);
    if turn[0] != outbox.cell {
        "14 cell"
    } else if life != outbox.life {
        if life < outbox.life { "14 life lower" } else { "14 life higher" }
    } else if count != outbox.next {
        if count < outbox.next { "14 count lower" } else { "14 count higher" }
    } else {
        "14 count 1,000,000"
    }
}

/// An acknowledgement: what it removes, or why it changes nothing.
fn acknowledged(outbox: &Outbox, life: u32, count: u32) -> Vec<&'static str> {
    let (oldest, next) = (outbox.oldest(), outbox.next);
    let heard = count > oldest && count <= next;
    vec![match (count.wrapping_sub(oldest), next.wrapping_sub(count)) {
        _ if heard && life < outbox.life => "another life, lower",
        _ if heard && life > outbox.life => "another life, higher",
        // Neither this life nor a count that could be heard shows nothing by itself.
        _ if life != outbox.life => return Vec::new(),
        _ if outbox.unheard.is_empty() => "none held",
        _ if count < oldest => "below the oldest",
        _ if count == oldest => "at the oldest",
        _ if count == next + 1 => "one past the next",
        _ if count > next => "further past the next",
        (30, 0) => "30 removed",
        (_, 0) => "all removed",
        (1, _) => "one removed",
        (_, 1) => "one left",
        _ => "more removed, more left",
    }]
}

/// A battery swap, done or refused.
fn swapped(outbox: &Outbox, life: u32) -> Vec<&'static str> {
    let done = life > outbox.life && life <= 65_535;
    let empty = outbox.unheard.is_empty();
    those(&[
        (done && empty, "none held"),
        (done && !empty, "entries dropped"),
        (done && life == outbox.life + 1, "to the life after"),
        (done && life == 65_535, "to life 65,535"),
        (life < outbox.life, "14 lower"),
        (life == outbox.life, "14 the same"),
        (life == 65_536, "14 to life 65,536"),
        (life > 65_536, "14 to a life above that"),
    ])
}
