//! "Text": cards, readings, voids, answers and sheets as lines of key=value pairs.

use crate::numbers::{Amounts, Card, Entry, Reading, Turn, Void, SOIL, USUAL_SHARE};
use crate::sheet::Sheet;
use std::str::FromStr;

/// The names of the amounts, in the page's order; a sheet leaves out the last.
pub const NAMES: [&str; 10] = [
    "inflow", "runoff", "etvad", "etstor", "etsat", "drain", "release", "stored", "recharge",
    "left",
];

/// What a reader hands back beside its card, reading or void.
#[derive(Clone, Copy, Debug, PartialEq, Eq)]
pub struct Taken {
    pub number: u32,
    pub bytes: usize,
    pub line: u32,
}

/// A refusal at a line of the reader's own text.
fn malformed(line: u32) -> Taken {
    Taken { number: 12, bytes: 0, line }
}

/// The first line without its LF; none if no LF ends it.
fn first_line(text: &[u8]) -> Option<&[u8]> {
    let end = text.iter().position(|byte| *byte == b'\n')?;
    Some(&text[..end])
}

/// The words of a line; one space stands between two words.
fn words(line: &[u8]) -> impl Iterator<Item = &[u8]> {
    line.split(|byte| *byte == b' ')
}

/// The value of the next word, which must bear this key.
fn value<'a>(words: &mut impl Iterator<Item = &'a [u8]>, key: &str) -> Option<&'a str> {
    let word = std::str::from_utf8(words.next()?).ok()?;
    word.strip_prefix(key)?.strip_prefix('=')
}

/// A decimal that fits and is written the one way it may be written.
fn decimal<'a, N: FromStr + ToString>(
    words: &mut impl Iterator<Item = &'a [u8]>,
    key: &str,
) -> Option<N> {
    let digits = value(words, key)?;
    let number: N = digits.parse().ok()?;
    (number.to_string() == digits).then_some(number)
}

/// The bits of a head, written as 8 lowercase hex digits.
fn head_bits<'a>(words: &mut impl Iterator<Item = &'a [u8]>) -> Option<u32> {
    let digits = value(words, "head")?;
    let bits = u32::from_str_radix(digits, 16).ok()?;
    (format!("{bits:08x}") == digits).then_some(bits)
}

/// The rest of a card's line: nothing for the usual share, or the key with any other.
fn share_word<'a>(words: impl Iterator<Item = &'a [u8]>) -> Option<u32> {
    let mut words = words.peekable();
    if words.peek().is_none() {
        return Some(USUAL_SHARE);
    }
    let share = decimal(&mut words, "share")?;
    (share != USUAL_SHARE && words.next().is_none()).then_some(share)
}

/// The card's own line: cells, delays, a depth for each delay, and a share that is not the usual one.
fn card_line(line: &[u8]) -> Option<Card> {
    let mut words = words(line);
    let mut card = Card::ZEROS;
    card.cells = decimal(&mut words, "cells")?;
    card.delays = decimal(&mut words, "delays")?;
    if !card.sized() {
        return None;
    }
    for place in 0..card.delays as usize {
        card.depths[place] = decimal(&mut words, "depth")?;
    }
    card.share = share_word(words)?;
    Some(card)
}

/// The line of one cell: its five soil numbers.
fn soil_line(line: &[u8]) -> Option<[i64; SOIL]> {
    let mut words = words(line);
    let top = decimal::<i64>(&mut words, "top")?;
    let etdepth = decimal::<u32>(&mut words, "etdepth")?;
    let vadpor = decimal::<u32>(&mut words, "vadpor")?;
    let leak = decimal::<u32>(&mut words, "leak")?;
    let cn = decimal::<u32>(&mut words, "cn")?;
    let soil = [top, etdepth.into(), vadpor.into(), leak.into(), cn.into()];
    words.next().is_none().then_some(soil)
}

/// The pairs of a turn, with which a reading's line begins and a void's goes on.
fn turn_pairs<'a>(words: &mut impl Iterator<Item = &'a [u8]>) -> Option<Turn> {
    let cell = decimal(words, "cell")?;
    let life = decimal(words, "life")?;
    let count = decimal(words, "count")?;
    Some(Turn { cell, life, count })
}

/// The line of one reading.
fn reading_line(line: &[u8]) -> Option<Reading> {
    let mut words = words(line);
    let Turn { cell, life, count } = turn_pairs(&mut words)?;
    let reading = Reading {
        cell,
        life,
        count,
        rain: decimal(&mut words, "rain")?,
        irrig: decimal(&mut words, "irrig")?,
        septic: decimal(&mut words, "septic")?,
        etmin: decimal(&mut words, "etmin")?,
        pet: decimal(&mut words, "pet")?,
        amc: decimal(&mut words, "amc")?,
        head: head_bits(&mut words)?,
    };
    words.next().is_none().then_some(reading)
}

/// The line of one void: the word itself, then its turn.
fn void_line(line: &[u8]) -> Option<Void> {
    let mut words = words(line);
    if words.next()? != b"void" {
        return None;
    }
    let void = turn_pairs(&mut words)?;
    words.next().is_none().then_some(void)
}

/// Card, soil numbers and bytes of a card text, or the malformed line.
fn whole_card(text: &[u8]) -> Result<(Card, Vec<i64>, usize), u32> {
    let first = first_line(text).ok_or(1u32)?;
    let card = card_line(first).ok_or(1u32)?;
    let mut bytes = first.len() + 1;
    let mut soil = Vec::new();
    for cell in 0..card.cells {
        let line = first_line(&text[bytes..]).ok_or(cell + 2)?;
        soil.extend(soil_line(line).ok_or(cell + 2)?);
        bytes += line.len() + 1;
    }
    Ok((card, soil, bytes))
}

/// Read a card, filling the first 5 x cells soil numbers.
pub fn read_card(text: &[u8], soil: &mut [i64]) -> (Taken, Card) {
    match whole_card(text) {
        Err(line) => (malformed(line), Card::ZEROS),
        Ok((_, read, _)) if soil.len() < read.len() => {
            (Taken { number: 2, bytes: 0, line: 0 }, Card::ZEROS)
        }
        Ok((card, read, bytes)) => {
            soil[..read.len()].copy_from_slice(&read);
            (Taken { number: 0, bytes, line: 0 }, card)
        }
    }
}

/// Read the first line as one kind of entry; zeros where it is none.
fn read_line<T: Default>(text: &[u8], kind: fn(&[u8]) -> Option<T>) -> (Taken, T) {
    let line = first_line(text);
    match line.and_then(|line| Some((kind(line)?, line.len() + 1))) {
        Some((read, bytes)) => (Taken { number: 0, bytes, line: 0 }, read),
        None => (malformed(1), T::default()),
    }
}

/// Read one reading, one line long.
pub fn read_reading(text: &[u8]) -> (Taken, Reading) {
    read_line(text, reading_line)
}

/// Read one void, one line long.
pub fn read_void(text: &[u8]) -> (Taken, Void) {
    read_line(text, void_line)
}

/// Read one line of a journal, with its bytes; none where it is neither a reading nor a void.
pub fn read_entry(text: &[u8]) -> Option<(Entry, usize)> {
    let line = first_line(text)?;
    let reading = reading_line(line).map(Entry::Reading);
    let entry = reading.or_else(|| void_line(line).map(Entry::Void))?;
    Some((entry, line.len() + 1))
}

/// Put a text at the buffer's start: number and length.
fn put(text: &str, buffer: &mut [u8]) -> (u32, usize) {
    if buffer.len() < text.len() {
        return (12, 0);
    }
    buffer[..text.len()].copy_from_slice(text.as_bytes());
    (0, text.len())
}

/// Is this a card that some text gives?
fn readable(card: &Card) -> bool {
    card.sized() && card.unused().iter().all(|depth| *depth == 0)
}

/// Does each soil number fit its text? Any top does.
fn soil_fits(soil: &[i64]) -> bool {
    let fits = |plot: &[i64]| plot[1..].iter().all(|n| u32::try_from(*n).is_ok());
    soil.chunks(SOIL).all(fits)
}

/// Write a card and its soil numbers: number and length.
pub fn write_card(card: &Card, soil: &[i64], buffer: &mut [u8]) -> (u32, usize) {
    if !readable(card) {
        return (12, 0);
    }
    if soil.len() != SOIL * card.cells as usize {
        return (2, 0);
    }
    if !soil_fits(soil) {
        return (12, 0);
    }
    put(&card_text(card, soil), buffer)
}

/// The text of a card that can be written.
fn card_text(card: &Card, soil: &[i64]) -> String {
    let mut text = format!("cells={} delays={}", card.cells, card.delays);
    for depth in card.used() {
        text += &format!(" depth={depth}");
    }
    if card.share != USUAL_SHARE {
        text += &format!(" share={}", card.share);
    }
    text.push('\n');
    for plot in soil.chunks(SOIL) {
        text += &format!(
            "top={} etdepth={} vadpor={} leak={} cn={}\n",
            plot[0], plot[1], plot[2], plot[3], plot[4]
        );
    }
    text
}

/// The pairs of a turn as text.
fn turn_text(turn: &Turn) -> String {
    format!("cell={} life={} count={}", turn.cell, turn.life, turn.count)
}

/// Write a reading: number and length.
pub fn write_reading(r: &Reading, buffer: &mut [u8]) -> (u32, usize) {
    let turn = turn_text(&r.turn());
    let waters = format!("rain={} irrig={} septic={}", r.rain, r.irrig, r.septic);
    let plants = format!("etmin={} pet={}", r.etmin, r.pet);
    let text = format!("{turn} {waters} {plants} amc={} head={:08x}\n", r.amc, r.head);
    put(&text, buffer)
}

/// Write a void: number and length.
pub fn write_void(v: &Void, buffer: &mut [u8]) -> (u32, usize) {
    put(&format!("void {}\n", turn_text(v)), buffer)
}

/// The line of an answer: cell as read, number, ten amounts.
pub fn answer_line(cell: u32, number: u32, amounts: &Amounts) -> String {
    let nine = amounts.nine();
    let ten = nine.iter().chain([&amounts.left]);
    format!("cell={cell} code={number}{}\n", named(ten))
}

/// The line of a sheet: steps and nine sums.
pub fn sheet_line(sheet: &Sheet) -> String {
    format!("steps={}{}\n", sheet.steps, named(sheet.sums.iter()))
}

/// Amounts under their names, a space before each.
fn named<'a>(amounts: impl Iterator<Item = &'a i64>) -> String {
    NAMES.iter().zip(amounts).map(|(name, amount)| format!(" {name}={amount}")).collect()
}
