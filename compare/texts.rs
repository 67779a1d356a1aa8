//! The texts of cards: well-formed and damaged texts, buffers of any size.

use crate::lent::{Lent, equal, same};
use crate::numbers::{card_numbers, card_of};
use crate::steps::small_site;
use crate::tally::Tally;
use crate::waterbook::{CARD, CARD_TEXT, CELLS, GOT, NOT_THE_COUNT, SOIL, raw};
use crate::{shares, wild};
use second::made::damage::harm;
use second::made::dice::Dice;
use second::made::entries::{entry_bytes, next_entry};
use second::made::readings::card_bytes;
use second::made::site::Site;
use second::text;

/// What texts of cards must be met for.
pub const TEXTS: &[&str] = &[
    "card read",
    "card malformed at line 1",
    "card malformed at line 2",
    "card malformed at a later line",
    "card read, soil slice longer",
    "card refused, soil slice shorter",
    "card written",
    "card written, buffer exactly as long",
    "card written, the longest",
    "card read, the longest",
    "card that no text gives",
    "card written with a soil slice of another length",
    "soil number that does not fit",
    "buffer too short for a card",
    "got slice of another length",
    "card slice of another length",
];

/// Bytes in which nothing is written yet.
pub fn blank(dice: &mut Dice, length: usize) -> Vec<u8> {
    vec![dice.pick(b"\0.\xff\n="); length]
}

/// Two numbers, or another count of them, for a call to fill.
pub fn got_slice(dice: &mut Dice) -> Vec<usize> {
    let length = if dice.once_in(50) { wild::other_length(dice, GOT, 1) } else { GOT };
    vec![0xdead_beef; length]
}

/// Numbers for a reader to fill, the right count of them mostly.
pub fn numbers_slice(dice: &mut Dice, right: usize) -> Vec<u32> {
    let length = if dice.once_in(50) { wild::other_length(dice, right, 1) } else { right };
    (0..length).map(|_| wild::any(dice)).collect()
}

/// Meet a call that was refused for a slice's count of numbers.
fn meet_count(got: &[usize], tally: &mut Tally) {
    let short = got.len() != GOT;
    let name = if short { "got slice of another length" } else { "card slice of another length" };
    tally.meet("texts", name);
}

/// The text of a card, well-formed or damaged, with or without more after it.
fn card_text(dice: &mut Dice) -> Vec<u8> {
    let mut site = small_site(dice);
    if dice.once_in(3) {
        any_soil(dice, &mut site);
    }
    if dice.once_in(4) {
        site.card.share = wild::share(dice);
    }
    let mut bytes = card_bytes(&site);
    match dice.below(4) {
        0 => bytes.extend(entry_bytes(&next_entry(&site, dice, 4))),
        1 => bytes.extend(dice.roll().to_le_bytes()),
        _ => {}
    }
    for _ in 0..dice.pick(&[0, 1, 1, 1, 2, 3]) {
        harm(dice, &mut bytes);
    }
    bytes
}

/// Any soil numbers that fit their text.
fn any_soil(dice: &mut Dice, site: &mut Site) {
    for (place, number) in site.soil.iter_mut().enumerate() {
        *number = if place % SOIL == 0 { wild::any_signed(dice) } else { wild::any(dice).into() };
    }
}

/// Read a card on both sides.
pub fn read_card(dice: &mut Dice, tally: &mut Tally) -> Result<(), String> {
    let bytes = card_text(dice);
    let length = if dice.once_in(2) { SOIL * CELLS } else { dice.place(25) };
    let soil = vec![wild::any_signed(dice); length];
    let (card, got) = (numbers_slice(dice, CARD), got_slice(dice));
    card_of_text(&bytes, soil, card, got, tally)
}

/// One card's text read by both, into slices that hold these numbers.
pub fn card_of_text(
    bytes: &[u8],
    mut soil: Vec<i64>,
    mut card: Vec<u32>,
    mut got: Vec<usize>,
    tally: &mut Tally,
) -> Result<(), String> {
    let length = soil.len();
    let (text, mut lent_soil) = (Lent::new(bytes, b' '), Lent::new(&soil, 1));
    let (mut lent_card, mut lent_got) = (Lent::new(&card, 7), Lent::new(&got, 9));
    let answered =
        raw::read_card(text.held(), lent_card.slice(), lent_soil.slice(), lent_got.slice());
    let mut number = NOT_THE_COUNT;
    if card.len() == CARD && got.len() == GOT {
        let (taken, read) = text::read_card(bytes, &mut soil);
        number = taken.number;
        card = card_numbers(&read).to_vec();
        got = vec![taken.bytes, taken.line as usize];
        tally.meet("texts", card_read(number, taken.line, soil.len() > SOIL * read.cells as usize));
        shares::meet("shares read", bytes, tally);
        if taken.bytes == CARD_TEXT {
            tally.meet("texts", "card read, the longest");
        }
    } else {
        meet_count(&got, tally);
    }
    tally.number("read_card", number);
    tally.texts += 1;
    equal("number", answered, number)
        .and_then(|()| same("got", &lent_got, &got))
        .and_then(|()| same("card", &lent_card, &card))
        .and_then(|()| same("soil", &lent_soil, &soil))
        .and_then(|()| same("text", &text, bytes))
        .map_err(|what| format!("read_card\n{what}\nsoil of {length}, text\n{}", shown(bytes)))
}

/// What reading a card came to.
fn card_read(number: u32, line: u32, longer: bool) -> &'static str {
    match (number, line) {
        (0, _) if longer => "card read, soil slice longer",
        (0, _) => "card read",
        (2, _) => "card refused, soil slice shorter",
        (_, 1) => "card malformed at line 1",
        (_, 2) => "card malformed at line 2",
        _ => "card malformed at a later line",
    }
}

/// A text as a line of Rust would show it.
pub fn shown(bytes: &[u8]) -> String {
    bytes.escape_ascii().to_string().replace("\\n", "\\n\n")
}

/// A buffer's length, given how long the text is that should stand in it.
pub fn buffer_length(dice: &mut Dice, text: usize) -> usize {
    let some = dice.place(2 * text + 2);
    dice.pick(&[text, text, text.saturating_sub(1), text + 1, text + 40, 0, some])
}

/// Write a card on both sides.
pub fn write_card(dice: &mut Dice, tally: &mut Tally) -> Result<(), String> {
    let mut site = small_site(dice);
    if dice.once_in(2) {
        any_soil(dice, &mut site);
        site.card.share = wild::share(dice);
    }
    let (mut card, mut soil) = (card_numbers(&site.card).to_vec(), site.soil.clone());
    let length = buffer_length(dice, card_bytes(&site).len());
    for _ in 0..dice.pick(&[0, 1, 1, 2, 3]) {
        wilder(dice, &mut card, &mut soil);
    }
    let (mut buffer, got) = (blank(dice, length), got_slice(dice));
    written_card(&card, &soil, &mut buffer, got, tally).map_err(|what| {
        format!("write_card\n{what}\nbuffer of {length}\ncard {card:?}\nsoil {soil:?}")
    })
}

/// One wild thing done to a card or its soil numbers.
fn wilder(dice: &mut Dice, card: &mut Vec<u32>, soil: &mut Vec<i64>) {
    match dice.below(12) {
        0..=4 if card.len() == CARD => wild::card(dice, card),
        5 | 6 => soil.resize(wild::other_length(dice, soil.len(), SOIL), 1),
        7 => card.resize(wild::other_length(dice, CARD, 1), 0),
        _ if soil.is_empty() => {}
        _ => {
            let place = dice.place(soil.len());
            soil[place] = wild::any_signed(dice);
        }
    }
}

/// One card written by both.
pub fn written_card(
    card: &[u32],
    soil: &[i64],
    buffer: &mut [u8],
    mut got: Vec<usize>,
    tally: &mut Tally,
) -> Result<(), String> {
    let (lent_card, lent_soil) = (Lent::new(card, 7), Lent::new(soil, 1));
    let (mut lent_buffer, mut lent_got) = (Lent::new(buffer, b' '), Lent::new(&got, 9));
    let answered =
        raw::write_card(lent_card.held(), lent_soil.held(), lent_buffer.slice(), lent_got.slice());
    let mut number = NOT_THE_COUNT;
    if card.len() == CARD && got.len() == GOT {
        let (wanted, length) = text::write_card(&card_of(card), soil, buffer);
        (number, got) = (wanted, vec![length, 0]);
        let name = card_written(number, card, soil, length == buffer.len());
        tally.meet("texts", name);
        shares::meet_written(number, &card_of(card), soil, buffer.len(), tally);
        if length == CARD_TEXT {
            tally.meet("texts", "card written, the longest");
        }
    } else {
        meet_count(&got, tally);
    }
    tally.number("write_card", number);
    tally.texts += 1;
    equal("number", answered, number)?;
    same("got", &lent_got, &got)?;
    same("buffer", &lent_buffer, buffer)?;
    same("card", &lent_card, card)?;
    same("soil", &lent_soil, soil)
}

/// What writing a card came to.
fn card_written(number: u32, card: &[u32], soil: &[i64], exact: bool) -> &'static str {
    let sized = (1..=256).contains(&card[0]) && card[1] <= 30;
    let no_text = !sized || card_of(card).unused().iter().any(|depth| *depth != 0);
    let fits = |place: usize| place % SOIL == 0 || u32::try_from(soil[place]).is_ok();
    match number {
        0 if exact => "card written, buffer exactly as long",
        0 => "card written",
        2 => "card written with a soil slice of another length",
        _ if no_text => "card that no text gives",
        _ if (0..soil.len()).all(fits) => "buffer too short for a card",
        _ => "soil number that does not fit",
    }
}
