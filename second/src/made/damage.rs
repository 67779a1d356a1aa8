//! Damaged texts: a fair journal with one or more things done to its bytes.

use super::dice::Dice;
use super::entries;
use super::site::Site;

/// Values that don't fit, or only just do, or aren't decimals at all.
const VALUES: [&str; 22] = [
    "4294967295",
    "4294967296",
    "9223372036854775807",
    "9223372036854775808",
    "-9223372036854775808",
    "-9223372036854775809",
    "18446744073709551616",
    "99999999999999999999999999999999999999999",
    "-0",
    "-1",
    "-",
    "",
    "00",
    "01",
    "+1",
    "1.0",
    "1e3",
    "0x1",
    "-00",
    "-01",
    "4294967297",
    "00000000000000000000000000000000000000000",
];

/// Card lines whose numbers are at an edge.
const CARDS: [&str; 16] = [
    "cells=0 delays=0",
    "cells=257 delays=0",
    "cells=256 delays=0",
    "cells=1 delays=31",
    "cells=1 delays=1",
    "cells=1 delays=0 depth=5",
    "cells=4294967295 delays=0",
    "cells=1 delays=4294967295",
    "cells=2 delays=0",
    "cells=1 delays=0",
    "cells=1 delays=0 share=5",
    "cells=2 delays=0 share=20",
    "cells=1 delays=1 share=5",
    "cells=1 delays=1 depth=5 share=19",
    "cells=256 delays=0 share=4",
    "share=5",
];

/// Words at the place of a card's share: malformed ones, then some with shares out of range, and one in it.
pub const SHARES: [&str; 30] = [
    "share=20",
    "share=020",
    "share=05",
    "share=00",
    "share=",
    "share",
    "share=-5",
    "share=-0",
    "share=+5",
    "share=4294967296",
    "share=4294967301",
    "share=18446744073709551621",
    "share=5.0",
    "share=5%",
    "share=0x5",
    "share=5\t",
    "share=5\r",
    "share=5 ",
    "share= 5",
    "share =5",
    "share==5",
    "shares=5",
    "Share=5",
    "SHARE=5",
    "share=0",
    "share=4",
    "share=21",
    "share=25",
    "share=4294967295",
    "share=5",
];

/// A journal with damage done to it.
pub fn damaged(dice: &mut Dice) -> Vec<u8> {
    if dice.once_in(60) {
        return Vec::new();
    }
    let mut site = Site::made(dice);
    if dice.once_in(8) {
        site.foul_card(dice);
    }
    let count = dice.below(12);
    let mut bytes = entries::journal(&mut site, dice, count);
    let times = if dice.once_in(6) { 2 } else { 1 };
    for _ in 0..times {
        harm(dice, &mut bytes);
    }
    bytes
}

/// Do one thing to the bytes.
pub fn harm(dice: &mut Dice, bytes: &mut Vec<u8>) {
    if bytes.is_empty() {
        return;
    }
    match dice.below(11) {
        0 => one_byte(dice, bytes),
        1 | 2 => at_a_space(dice, bytes),
        3 | 4 => at_a_value(dice, bytes),
        5 => at_a_head(dice, bytes),
        6 => at_a_line(dice, bytes),
        7 => at_the_end(dice, bytes),
        8 => at_a_void(dice, bytes),
        9 => at_the_share(dice, bytes),
        _ => at_the_card(dice, bytes),
    }
}

/// Flip a bit, or put in, take out or change a byte, anywhere.
fn one_byte(dice: &mut Dice, bytes: &mut Vec<u8>) {
    let place = dice.place(bytes.len());
    let stray = dice.pick(b"\0\t\r\n 0-=+aA\x80\xff");
    match dice.below(5) {
        0 | 1 => bytes[place] ^= 1 << dice.below(8),
        2 => bytes.insert(place, stray),
        3 => bytes[place] = stray,
        _ => drop(bytes.remove(place)),
    }
}

/// A place that holds this byte, if any does.
fn find(dice: &mut Dice, bytes: &[u8], wanted: u8) -> Option<usize> {
    let places: Vec<usize> = (0..bytes.len()).filter(|p| bytes[*p] == wanted).collect();
    if places.is_empty() {
        return None;
    }
    Some(dice.pick(&places))
}

/// Double a space, take it out, turn it into another byte, or drop the word after it.
fn at_a_space(dice: &mut Dice, bytes: &mut Vec<u8>) {
    let Some(place) = find(dice, bytes, b' ') else {
        return;
    };
    match dice.below(5) {
        0 => bytes.insert(place, b' '),
        1 => drop(bytes.remove(place)),
        2 => bytes[place] = dice.pick(b"\t\r\n,=\0"),
        3 => drop(bytes.drain(place..word_end(bytes, place + 1))),
        _ => {
            let word = bytes[place..word_end(bytes, place + 1)].to_vec();
            bytes.splice(place..place, word);
        }
    }
}

/// The place where the word that starts here ends.
fn word_end(bytes: &[u8], start: usize) -> usize {
    let ends = |byte: &u8| *byte == b' ' || *byte == b'\n';
    bytes[start..].iter().position(ends).map_or(bytes.len(), |length| start + length)
}

/// The place where the line that this place is in ends.
fn line_end(bytes: &[u8], start: usize) -> usize {
    bytes[start..].iter().position(|b| *b == b'\n').map_or(bytes.len(), |length| start + length)
}

/// Put a strange value in the place of some value, or a sign or zero before it.
fn at_a_value(dice: &mut Dice, bytes: &mut Vec<u8>) {
    let Some(equals) = find(dice, bytes, b'=') else {
        return;
    };
    let start = equals + 1;
    match dice.below(4) {
        0 => bytes.insert(start, b'0'),
        1 => bytes.insert(start, b'-'),
        _ => {
            let value = dice.pick(&VALUES).bytes();
            let end = word_end(bytes, start);
            bytes.splice(start..end, value);
        }
    }
}

/// Harm the digits of some head, if the journal has one.
fn at_a_head(dice: &mut Dice, bytes: &mut Vec<u8>) {
    let starts: Vec<usize> =
        (0..bytes.len()).filter(|p| bytes[*p..].starts_with(b"head=")).collect();
    if starts.is_empty() {
        return at_a_value(dice, bytes);
    }
    let start = dice.pick(&starts) + 5;
    let end = word_end(bytes, start);
    match dice.below(6) {
        0 | 1 => bytes[start..end].make_ascii_uppercase(),
        2 => bytes.insert(start, b'0'),
        3 if end > start => drop(bytes.remove(start)),
        4 if end > start => bytes[start] = dice.pick(b"gAF+- :/`@"),
        _ => drop(bytes.splice(start..end, *b"f149f2cA")),
    }
}

/// Harm the first word of some void, give it figures, or make a void of a reading by its word alone.
fn at_a_void(dice: &mut Dice, bytes: &mut Vec<u8>) {
    let begins = |p: &usize| *p == 0 || bytes[*p - 1] == b'\n';
    let entry = |p: &usize| bytes[*p..].starts_with(b"void ") || bytes[*p..].starts_with(b"cell=");
    let starts: Vec<usize> = (0..bytes.len()).filter(begins).filter(entry).collect();
    if starts.is_empty() {
        return at_a_value(dice, bytes);
    }
    let start = dice.pick(&starts);
    if bytes[start] != b'v' {
        return drop(bytes.splice(start..start, *b"void "));
    }
    let end = line_end(bytes, start);
    match dice.below(8) {
        0 => bytes[start..start + 4].make_ascii_uppercase(),
        1 => drop(bytes.drain(start..start + 5)),
        2 => drop(bytes.splice(start..start + 4, *b"void=")),
        3 => drop(bytes.splice(start..start, *b"void ")),
        4 => drop(bytes.remove(start + dice.place(5))),
        5 => bytes.insert(start + dice.place(5), dice.pick(b"void \t")),
        6 => drop(bytes.splice(end..end, *b" rain=0")),
        _ => drop(bytes.splice(end..end, *b" void")),
    }
}

/// Give the first line another share, two of them, one at a wrong place, or none; or give one to another line.
fn at_the_share(dice: &mut Dice, bytes: &mut Vec<u8>) {
    let end = line_end(bytes, 0);
    let mut words: Vec<Vec<u8>> = bytes[..end].split(|b| *b == b' ').map(<[u8]>::to_vec).collect();
    words.retain(|word| !word.starts_with(b"share="));
    let [some, other] = [0, 1].map(|_| format!("share={}", dice.below(26)).into_bytes());
    match dice.below(12) {
        0 => words.extend([some.clone(), some]),
        1 => words.extend([some, other]),
        2 => words.extend([Vec::new(), some]),
        3 | 4 => words.insert(dice.place(words.len().max(1)), some),
        5 => return share_elsewhere(dice, bytes, (end + 1).min(bytes.len())),
        6 => {}
        _ => words.push(dice.pick(&SHARES).as_bytes().to_vec()),
    }
    bytes.splice(..end, words.join(&b' '));
}

/// Put a share behind the first line's end, where the next line starts, or at the end of some line.
fn share_elsewhere(dice: &mut Dice, bytes: &mut Vec<u8>, next: usize) {
    let some_end = find(dice, bytes, b'\n').unwrap_or(bytes.len());
    let (place, share) = dice.pick(&[
        (next, "share=5\n"),
        (next, " share=5\n"),
        (next, "share=5 "),
        (line_end(bytes, next), " share=5"),
        (some_end, " share=5"),
    ]);
    bytes.splice(place..place, share.bytes());
}

/// Take out, repeat, move or blank a line, or put CR or a space at its end.
fn at_a_line(dice: &mut Dice, bytes: &mut Vec<u8>) {
    let mut lines: Vec<Vec<u8>> =
        bytes.split_inclusive(|b| *b == b'\n').map(<[u8]>::to_vec).collect();
    let place = dice.place(lines.len());
    let other = dice.place(lines.len());
    let end = lines[place].len() - 1;
    match dice.below(8) {
        0 => drop(lines.remove(place)),
        1 => lines.insert(other, lines[place].clone()),
        2 => lines.swap(place, other),
        3 => lines.insert(place, b"\n".to_vec()),
        4 => lines[place].insert(end, b'\r'),
        5 => lines[place].insert(end, b' '),
        6 => lines[place].insert(0, b' '),
        _ => lines.iter_mut().for_each(|line| line.insert(line.len() - 1, b'\r')),
    }
    *bytes = lines.concat();
}

/// Cut the end off, or put more after it.
fn at_the_end(dice: &mut Dice, bytes: &mut Vec<u8>) {
    match dice.below(6) {
        0 | 1 => bytes.truncate(dice.place(bytes.len())),
        2 => drop(bytes.pop()),
        3 => bytes.push(b'\n'),
        4 => bytes.push(dice.pick(b"\0 \rc")),
        _ => bytes.truncate(bytes.len().saturating_sub(1 + dice.place(120))),
    }
}

/// Put another card line in the place of the first line, or cut after some lines.
fn at_the_card(dice: &mut Dice, bytes: &mut Vec<u8>) {
    let Some(place) = find(dice, bytes, b'\n') else {
        return;
    };
    if dice.once_in(3) {
        return bytes.truncate(place + 1);
    }
    let first = bytes.iter().position(|byte| *byte == b'\n').unwrap_or(place);
    bytes.splice(..first, dice.pick(&CARDS).bytes());
}
