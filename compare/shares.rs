//! Shares: every one on a card, and what texts of cards have at a share's place.

use crate::branches::rain_at_the_edge;
use crate::given::{Given, Slices, both, take};
use crate::numbers::card_numbers;
use crate::steps::{clearing, site_of_curves};
use crate::tally::Tally;
use crate::texts::{card_of_text, written_card};
use crate::waterbook::{CARD, CARD_TEXT, CELLS, GOT, LONGEST, ROW, SOIL};
use second::head::DRY;
use second::made::damage::SHARES;
use second::numbers::{Card, Entry, MOST_RAIN, Reading, USUAL_SHARE, Void};
use second::text::{read_card, write_card};

/// The kinds of shares that the sweep must meet.
pub const KINDS: &[&str] = &["below 5", "5", "between", "20", "above 20"];

/// The kind of a share.
fn kind(share: u32) -> &'static str {
    KINDS[match share {
        0..=4 => 0,
        5 => 1,
        6..=19 => 2,
        20 => 3,
        21.. => 4,
    }]
}

/// What texts must have at the place of a card's share, with nothing else wrong where a name says no more.
pub const READ: &[&str] = &[
    "no key",
    "5",
    "between",
    "below 5",
    "above 20",
    "20 written out",
    "a leading zero",
    "no number",
    "a minus",
    "more than 32 bits",
    "another word",
    "two keys",
    "a space too many",
    "before another pair",
    "on a line below",
    "out of range, and a line below malformed",
];

/// What must be met in writing a card's share.
pub const WRITTEN: &[&str] = &["below 5", "5", "between", "20", "above 20", "room but for the key"];

/// Note what a card's text has at its share's place.
pub fn meet(heading: &'static str, text: &[u8], tally: &mut Tally) {
    if let Some(name) = found(text) {
        tally.meet(heading, name);
    }
}

/// The card of a text, or the line at which it is malformed.
fn card_or_line(text: &[u8]) -> Result<Card, u32> {
    let (taken, card) = read_card(text, &mut [0; SOIL * CELLS]);
    if taken.number == 0 { Ok(card) } else { Err(taken.line) }
}

/// What a text has at its share's place, if that can be told.
fn found(text: &[u8]) -> Option<&'static str> {
    let mut lines = text.split(|byte| *byte == b'\n');
    match card_or_line(text) {
        Ok(card) if card.share == USUAL_SHARE => Some("no key"),
        Ok(card) => Some(kind(card.share)),
        Err(1) => malformed(lines.next()?, text),
        Err(below) => {
            let share = lines.next()?.rsplit(|byte| *byte == b' ').next()?;
            let out = named(share).is_some_and(|share| !(5..=20).contains(&share));
            let here = lines.nth(below as usize - 2)?.windows(6).any(|six| six == b"share=");
            match (here, out) {
                (true, _) => Some("on a line below"),
                (_, true) => Some("out of range, and a line below malformed"),
                _ => None,
            }
        }
    }
}

/// The number of a share's pair, if it has one that fits.
fn named(pair: &[u8]) -> Option<u32> {
    std::str::from_utf8(pair.strip_prefix(b"share=")?).ok()?.parse().ok()
}

/// What is wrong with the share of a malformed first line; none if the line is malformed without it too.
fn malformed(first: &[u8], text: &[u8]) -> Option<&'static str> {
    let words: Vec<&[u8]> = first.split(|byte| *byte == b' ').collect();
    let is_key = |word: &&[u8]| word.get(..5).is_some_and(|key| key.eq_ignore_ascii_case(b"share"));
    let keys: Vec<&[u8]> = words.iter().copied().filter(is_key).collect();
    let others = words.iter().copied().filter(|word| !is_key(word) && !word.is_empty());
    let rest: Vec<&[u8]> = others.collect();
    let without = [&rest.join(&b' '), &text[first.len()..]].concat();
    if keys.is_empty() || card_or_line(&without) == Err(1) {
        return None;
    }
    Some(match words.last() {
        _ if keys.len() > 1 => "two keys",
        _ if words.len() > keys.len() + rest.len() => "a space too many",
        Some(last) if !is_key(last) => "before another pair",
        _ => wrong_pair(keys[0]),
    })
}

/// What is wrong with a share's pair that stands where it should.
fn wrong_pair(pair: &[u8]) -> &'static str {
    match pair.strip_prefix(b"share=") {
        Some(b"20") => "20 written out",
        Some([b'-', ..]) => "a minus",
        Some([b'0', b'0'..=b'9', ..]) => "a leading zero",
        Some([_, ..]) if pair[6..].iter().all(u8::is_ascii_digit) => "more than 32 bits",
        Some([]) => "no number",
        None if pair == b"share" => "no number",
        _ => "another word",
    }
}

/// Note what came of a share that was to be written into so many bytes.
pub fn meet_written(answered: u32, card: &Card, soil: &[i64], room: usize, tally: &mut Tally) {
    let usual = Card { share: USUAL_SHARE, ..*card };
    if answered == 0 {
        tally.meet("shares written", kind(card.share));
    } else if answered == 12 && write_card(&usual, soil, &mut vec![0; room]).0 == 0 {
        tally.meet("shares written", "room but for the key");
    }
}

/// Every share near its range, and the largest.
fn shares() -> impl Iterator<Item = u32> {
    (0..=25).chain([u32::MAX])
}

/// The number of each call on a card with this share and nothing wrong but that.
fn number_at(share: u32) -> u32 {
    u32::from(!(5..=20).contains(&share))
}

/// Rains around the first with runoff and the most, on every curve number at a share: the runoffs of the most.
fn storms(
    share: u32,
    given: &mut Given,
    slices: &mut Slices,
    tally: &mut Tally,
) -> Result<Vec<i64>, String> {
    let mut runoffs = Vec::new();
    for cell in 0..100 {
        let edge = rain_at_the_edge(i64::from(cell) + 1, share.clamp(5, 20).into());
        let edge = edge.min(MOST_RAIN.into()) as u32;
        for (count, rain) in (0..).zip([edge.saturating_sub(1), edge, MOST_RAIN]) {
            let reading = Reading { cell, count, rain, amc: 2, head: DRY, ..Reading::default() };
            take(given, slices, &Entry::Reading(reading));
            let at =
                |what| format!("step, rain {rain} on cn {} at share {share}\n{what}", cell + 1);
            let number = both(given, slices, tally).map_err(at)?;
            if number != number_at(share) || (count == 0 && given.amounts[1] > 0) {
                return Err(at(format!("number {number}, runoff {}", given.amounts[1])));
            }
            tally.meet("every share", kind(share));
        }
        runoffs.push(given.amounts[1]);
    }
    Ok(runoffs)
}

/// Every share on a card: storms, a void and a clearing.
pub fn on_cards(tally: &mut Tally) -> Result<(), String> {
    let mut before = vec![i64::MAX; 100];
    for share in shares() {
        let mut given = Given::by(&site_of_curves(share));
        let mut slices = Slices::lend(&given);
        let runoffs = storms(share, &mut given, &mut slices, tally)?;
        let at = |what| format!("share {share}\n{what}");
        let (wanted, mut count) = (number_at(share), 0);
        if wanted == 0 {
            // Of the most rain less runs off at each greater share, on the curve numbers from 8 to 99.
            if (7..99).any(|cell| runoffs[cell] >= before[cell]) {
                return Err(at(format!("runoffs {runoffs:?}\nafter   {before:?}")));
            }
            (before, count) = (runoffs, 3);
        }
        take(&mut given, &mut slices, &Entry::Void(Void { cell: 0, life: 0, count }));
        let voided = both(&mut given, &mut slices, tally).map_err(at)?;
        let cleared = clearing(&given.card, vec![7; 100 * ROW], tally).map_err(at)?;
        if [voided, cleared] != [wanted; 2] {
            return Err(at(format!("void {voided}, clearing {cleared}")));
        }
    }
    Ok(())
}

/// A card's text read by both into whole slices.
fn read(text: &[u8], tally: &mut Tally) -> Result<(), String> {
    card_of_text(text, vec![-3; SOIL * CELLS], vec![7; CARD], vec![9; GOT], tally)
}

/// Every share and every word that damage puts in its place, behind depths and without; then the longest card.
pub fn in_texts(tally: &mut Tally) -> Result<(), String> {
    let soil = [10_000_000, 1_500_000, 200, 100_000, 80];
    for depths in [&[][..], &[5], &[5, 1_000_000]] {
        let delays = depths.len() as u32;
        let mut card = Card { cells: 1, delays, ..Card::BLANK };
        card.depths[..depths.len()].copy_from_slice(depths);
        let mut bare = vec![0; LONGEST];
        let length = write_card(&card, &soil, &mut bare).1;
        let end = bare.iter().position(|byte| *byte == b'\n').unwrap_or(0);
        let with = |word: &str| [&bare[..end], b" ", word.as_bytes(), &bare[end..length]].concat();
        for word in shares().map(|share| format!("share={share}")).chain(SHARES.map(String::from)) {
            read(&with(&word), tally)?;
        }
        read(&bare[..length], tally)?;
        let longest = length + " share=4294967295".len();
        for (share, room) in shares().flat_map(|share| (0..=longest).map(move |room| (share, room)))
        {
            write(&Card { share, ..card }, &soil, room, tally)?;
        }
    }
    longest(tally)
}

/// A card written by both into so many bytes.
fn write(card: &Card, soil: &[i64], room: usize, tally: &mut Tally) -> Result<(), String> {
    let numbers = card_numbers(card);
    written_card(&numbers, soil, &mut vec![b'.'; room], vec![9; GOT], tally)
        .map_err(|what| format!("write_card\n{what}\nbuffer of {room}\n{card:?}"))
}

/// The longest card: written into a byte too few and into enough, and read.
fn longest(tally: &mut Tally) -> Result<(), String> {
    let most = u32::MAX;
    let card = Card { cells: CELLS as u32, delays: 30, depths: [most; 30], share: most };
    let soil = [i64::MIN, most.into(), most.into(), most.into(), most.into()].repeat(CELLS);
    write(&card, &soil, CARD_TEXT - 1, tally)?;
    write(&card, &soil, CARD_TEXT, tally)?;
    let mut text = vec![0; CARD_TEXT];
    write_card(&card, &soil, &mut text);
    read(&text, tally)
}
