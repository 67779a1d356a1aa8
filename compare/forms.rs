//! What calls on outboxes were refused for before they were looked at: shapes, and outboxes out of form.

use crate::outbox::{BOX, ENTRY};
use crate::outboxes::Given;
use second::made::outboxes::Call;
use second::outbox::{Outbox, entry_of};

/// What must have been met that has not its shape.
pub const SHAPES: &[&str] = &[
    "outbox short",
    "outbox long",
    "entry short",
    "entry long",
    "entry of an unknown kind",
    "entry a void with figures",
    "entry, and the outbox out of form",
];

/// What outboxes must have been out of form for.
pub const FORMS: &[&str] = &[
    "cell 256",
    "cell above 256",
    "life 65,536",
    "life above 65,536",
    "next count 1,000,001",
    "next count above 1,000,001",
    "31 held",
    "more than 31 held",
    "more held than counts",
    "an entry of an unknown kind",
    "a void with figures",
    "an entry of another cell",
    "an entry of a lower life",
    "an entry of a higher life",
    "an entry with a lower count",
    "an entry with a higher count",
    "spare room, its first number",
    "spare room, its last number",
    "spare room, another number",
];

/// The first thing that has not its shape, if one has not.
pub fn wrong_shape(given: &Given) -> Option<&'static str> {
    let lent = matches!(given.call, Call::Offer | Call::Add);
    match (given.outbox.len(), given.entry.len()) {
        (width, _) if width < BOX => Some("outbox short"),
        (width, _) if width > BOX => Some("outbox long"),
        (_, width) if lent && width < ENTRY => Some("entry short"),
        (_, width) if lent && width > ENTRY => Some("entry long"),
        _ if given.call != Call::Add || entry_of(&given.entry).is_some() => None,
        _ if given.entry[0] > 1 => Some("entry of an unknown kind"),
        _ => Some("entry a void with figures"),
    }
}

/// The outbox of a slice, if it has its width and is in form.
pub fn in_form(numbers: &[u32]) -> Option<Outbox> {
    let whole = Some(numbers).filter(|numbers| numbers.len() == BOX)?;
    Outbox::read(whole).ok().filter(Outbox::in_form)
}

/// What has not its shape, and whether the outbox is out of form besides.
pub fn shape_faults(given: &Given) -> Vec<&'static str> {
    let bad = given.outbox.len() == BOX && in_form(&given.outbox).is_none();
    let besides = bad.then_some("entry, and the outbox out of form");
    wrong_shape(given).into_iter().chain(besides).collect()
}

/// Why an outbox is out of form: the first of its numbers that is wrong.
pub fn form_fault(numbers: &[u32]) -> &'static str {
    let (cell, life, next, held) = (numbers[0], numbers[1], numbers[2], numbers[3]);
    match (cell, life, next, held) {
        (256, _, _, _) => "cell 256",
        (257.., _, _, _) => "cell above 256",
        (_, 65_536, _, _) => "life 65,536",
        (_, 65_537.., _, _) => "life above 65,536",
        (_, _, 1_000_001, _) => "next count 1,000,001",
        (_, _, 1_000_002.., _) => "next count above 1,000,001",
        (_, _, _, 31) => "31 held",
        (_, _, _, 32..) => "more than 31 held",
        _ if held > next => "more held than counts",
        _ => {
            let (used, spare) = numbers[4..].split_at(ENTRY * held as usize);
            let mut places = used.chunks(ENTRY).zip(next - held..);
            let fault = places.find_map(|(place, count)| entry_fault(place, cell, life, count));
            fault.unwrap_or_else(|| spare_fault(spare))
        }
    }
}

/// Why an entry is not its outbox's at that place, if it is not.
fn entry_fault(place: &[u32], cell: u32, life: u32, count: u32) -> Option<&'static str> {
    match place[0] {
        2.. => Some("an entry of an unknown kind"),
        1 if entry_of(place).is_none() => Some("a void with figures"),
        _ if place[1] != cell => Some("an entry of another cell"),
        _ if place[2] < life => Some("an entry of a lower life"),
        _ if place[2] > life => Some("an entry of a higher life"),
        _ if place[3] < count => Some("an entry with a lower count"),
        _ if place[3] > count => Some("an entry with a higher count"),
        _ => None,
    }
}

/// Which number of spare room is not zero.
fn spare_fault(spare: &[u32]) -> &'static str {
    match spare.iter().position(|number| *number != 0) {
        Some(0) => "spare room, its first number",
        Some(place) if place + 1 == spare.len() => "spare room, its last number",
        Some(_) => "spare room, another number",
        None => "no number is wrong",
    }
}
