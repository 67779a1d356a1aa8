//! Reading and writing voids.

use super::example;
use crate::made::dice::Dice;
use crate::made::entries::void_bytes;
use crate::made::readings::reading_bytes;
use crate::numbers::{Entry, Void};
use crate::text::{read_entry, read_reading, read_void, write_void, Taken};

const VOID: &str = "void cell=12 life=3 count=4050\n";
const NOTICE: Void = Void { cell: 12, life: 3, count: 4050 };

/// Changes to the line, each of which makes it malformed.
const CHANGES: [(&str, &str); 36] = [
    ("void", "VOID"),
    ("void", "Void"),
    ("void", " void"),
    ("void ", ""),
    ("void ", "void"),
    ("void ", "void="),
    ("void ", "void  "),
    ("void ", "void\t"),
    ("void", "void void"),
    ("void", "voids"),
    ("cell=12", "cell=012"),
    ("cell=12", "cell=00"),
    ("cell=12", "cell=4294967296"),
    ("cell=12", "cell=-1"),
    ("cell=12", "cell=+1"),
    ("cell=12", "Cell=12"),
    ("cell=12", "cell="),
    ("cell=12", "cell"),
    ("cell=12 ", ""),
    ("cell=12 life=3", "life=3 cell=12"),
    (" life", "  life"),
    ("life=3", "life=03"),
    ("life=3", "life=4294967296"),
    ("life=3", "life=18446744073709551619"),
    (" life=3", ""),
    (" count", "  count"),
    ("count=4050", "count=04050"),
    ("count=4050", "count=4294967296"),
    ("count=4050", "count=4050 count=4050"),
    ("count=4050", "count=4050 rain=0"),
    (" count=4050", ""),
    ("count", "\ncount"),
    ("\n", ""),
    ("\n", " \n"),
    ("\n", "\t\n"),
    ("\n", "\r\n"),
];

/// Is this void malformed?
fn trouble(text: &[u8]) -> bool {
    let refused = (Taken { number: 12, bytes: 0, line: 1 }, Void::default());
    let read = read_void(text);
    assert_eq!(read.0.number != 0, read == refused);
    read == refused
}

#[test]
fn there_and_back() {
    let most = u32::MAX;
    let edges = [0, 1, 9, 10, 65_535, 999_999, 1_000_000, most];
    for (cell, life, count) in edges.map(|edge| (edge, most - edge, edge / 2)) {
        let notice = Void { cell, life, count };
        let text = void_bytes(&notice);
        let taken = Taken { number: 0, bytes: text.len(), line: 0 };
        assert_eq!(read_void(&text), (taken, notice));
        assert_eq!(read_entry(&text), Some((Entry::Void(notice), text.len())));
    }
}

#[test]
fn nothing_after_the_line_is_looked_at() {
    let more = [VOID.as_bytes(), b"\xff anything"].concat();
    assert_eq!(read_void(&more), (Taken { number: 0, bytes: VOID.len(), line: 0 }, NOTICE));
}

/// A figure that is doubled or missing may give another void; every other byte is needed once.
#[test]
fn a_byte_missing_or_doubled() {
    for (place, byte) in VOID.bytes().enumerate() {
        let (mut missing, mut doubled) = (VOID.as_bytes().to_vec(), VOID.as_bytes().to_vec());
        missing.remove(place);
        doubled.insert(place, byte);
        let only_figure = VOID[..place].ends_with('=') && VOID[place + 1..].starts_with(' ');
        let stays = byte.is_ascii_digit() && !only_figure && &VOID[place..=place + 1] != "40";
        assert_eq!(trouble(&missing), !stays, "{place} missing");
        assert_eq!(trouble(&doubled), !byte.is_ascii_digit() && byte != b'\n', "{place} doubled");
        let other = [missing, doubled].map(|text| read_void(&text).1);
        assert!(place + 1 == VOID.len() || other.iter().all(|read| *read != NOTICE), "{place}");
    }
}

#[test]
fn malformed_voids() {
    for (from, to) in CHANGES {
        assert!(VOID.contains(from));
        let text = VOID.replacen(from, to, 1);
        assert!(trouble(text.as_bytes()), "{from:?} to {to:?}");
        assert_eq!(read_entry(text.as_bytes()), None, "{from:?} to {to:?}");
    }
    assert!(trouble(b"") && trouble(b"\n") && trouble(b"void\n") && trouble(b"void \xff\n"));
    let fits = VOID.replace("4050", "4294967295");
    assert_eq!(read_void(fits.as_bytes()).1.count, u32::MAX);
}

/// The two kinds of line begin with other words, whatever is done to them.
#[test]
fn never_both_a_reading_and_a_void() {
    let mut dice = Dice::new(3);
    let lines = [VOID.as_bytes().to_vec(), reading_bytes(&example())];
    let (mut readings, mut voids) = (0, 0);
    for _ in 0..20_000 {
        let mut text = dice.pick(&[&lines[0], &lines[1]]).clone();
        crate::made::damage::harm(&mut dice, &mut text);
        let [reading, void] = [read_reading(&text).0.number, read_void(&text).0.number];
        assert!(reading != 0 || void != 0, "{}", text.escape_ascii());
        assert_eq!(read_entry(&text).is_some(), reading == 0 || void == 0);
        readings += u32::from(reading == 0);
        voids += u32::from(void == 0);
    }
    assert!(readings > 100 && voids > 100, "{readings} readings, {voids} voids");
    assert!(trouble(&lines[1]));
    assert_ne!(read_reading(&lines[0]).0.number, 0);
}

#[test]
fn writing_a_void() {
    let mut buffer = [b'.'; 60];
    assert_eq!(write_void(&NOTICE, &mut buffer), (0, VOID.len()));
    assert_eq!(&buffer[..VOID.len()], VOID.as_bytes());
    assert!(buffer[VOID.len()..].iter().all(|byte| *byte == b'.'));
    let mut exact = vec![b'.'; VOID.len()];
    assert_eq!(write_void(&NOTICE, &mut exact), (0, VOID.len()));
    for length in 0..VOID.len() {
        let mut short = vec![b'.'; length];
        assert_eq!(write_void(&NOTICE, &mut short), (12, 0));
        assert!(short.iter().all(|byte| *byte == b'.'));
    }
}

#[test]
fn the_longest_void() {
    let (cell, life, count) = (u32::MAX, u32::MAX, u32::MAX);
    assert_eq!(void_bytes(&Void { cell, life, count }).len(), 54);
}
