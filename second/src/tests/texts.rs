//! Reading and writing texts.

use super::{card, example, PLOT};
use crate::numbers::{Card, Reading};
use crate::text::{read_card, read_reading, write_card, write_reading, Taken};

const CARD: &[u8] = b"cells=1 delays=2 depth=1000000 depth=2000000\n\
    top=10000000 etdepth=1500000 vadpor=200 leak=100000 cn=80\n";
const READING: &str = "cell=0 life=0 count=0 rain=50800 irrig=0 septic=1000 etmin=2000 pet=5000 \
    amc=2 head=410c0000\n";

/// The line at which a card text is malformed, 0 if it isn't.
fn card_trouble(text: &[u8]) -> u32 {
    let mut soil = [9; 1280];
    let (taken, read) = read_card(text, &mut soil);
    if taken.number != 0 {
        assert_eq!((taken.number, taken.bytes, read, soil), (12, 0, Card::ZEROS, [9; 1280]));
    }
    taken.line
}

/// Is this reading malformed?
fn reading_trouble(text: &[u8]) -> bool {
    let (taken, read) = read_reading(text);
    let refused = (Taken { number: 12, bytes: 0, line: 1 }, Reading::default());
    taken.number != 0 && (taken, read) == refused
}

#[test]
fn the_examples_card() {
    let mut soil = [9; 6];
    let more = [CARD, b"\xff not looked at"].concat();
    let (taken, read) = read_card(&more, &mut soil);
    assert_eq!(taken, Taken { number: 0, bytes: CARD.len(), line: 0 });
    assert_eq!(read, card(1, &[1_000_000, 2_000_000]));
    assert_eq!((&soil[..5], soil[5]), (&PLOT[..], 9));
}

#[test]
fn a_short_soil_slice_gives_2_after_12() {
    let refused = (Taken { number: 2, bytes: 0, line: 0 }, Card::ZEROS);
    let mut soil = [9; 4];
    assert_eq!(read_card(CARD, &mut soil), refused);
    assert_eq!(soil, [9; 4]);
    assert_eq!(read_card(&CARD[..CARD.len() - 1], &mut soil).0.number, 12);
}

#[test]
fn malformed_cards() {
    assert_eq!(card_trouble(b""), 1);
    assert_eq!(card_trouble(b"\n"), 1);
    assert_eq!(card_trouble(b"cells=0 delays=0\n"), 1);
    assert_eq!(card_trouble(b"cells=257 delays=0\n"), 1);
    assert_eq!(card_trouble(b"cells=256 delays=30\n"), 1);
    assert_eq!(card_trouble(b"cells=1 delays=31\n"), 1);
    assert_eq!(card_trouble(b"cells=1 delays=0"), 1);
    assert_eq!(card_trouble(b"cells=1 delays=0\n"), 2);
    assert_eq!(card_trouble(b"cells=1 delays=0 depth=4\n"), 1);
    assert_eq!(card_trouble(b"cells=1 delays=2 depth=4\n"), 1);
    assert_eq!(card_trouble(b"cells=3 delays=0\ntop=0 etdepth=0 vadpor=0 leak=0 cn=0\n"), 3);
    assert_eq!(card_trouble(&CARD[..CARD.len() - 1]), 2);
}

/// The malformed line of a card with this top and curve number, 0 if none.
fn soil_trouble(top: &str, cn: &str) -> u32 {
    let text = format!("cells=1 delays=0\ntop={top} etdepth=0 vadpor=0 leak=0 cn={cn}\n");
    card_trouble(text.as_bytes())
}

#[test]
fn tops_that_fit() {
    for top in ["0", "-1", "9223372036854775807", "-9223372036854775808"] {
        assert_eq!(soil_trouble(top, "4294967295"), 0, "{top}");
    }
    for top in ["", "-", "-0", "00", "01", "-01", "+1", "- 1", "1-"] {
        assert_eq!(soil_trouble(top, "0"), 2, "{top}");
    }
    for top in ["9223372036854775808", "-9223372036854775809"] {
        assert_eq!(soil_trouble(top, "0"), 2, "{top}");
    }
}

#[test]
fn curve_numbers_that_fit() {
    for cn in ["", "-1", "-0", "00", "+0", "4294967296", "1 "] {
        assert_eq!(soil_trouble("0", cn), 2, "{cn}");
    }
    assert_eq!(soil_trouble("0", "99999999999999999999999999"), 2);
}

#[test]
fn the_examples_reading() {
    let more = [READING.as_bytes(), b"anything"].concat();
    let taken = Taken { number: 0, bytes: READING.len(), line: 0 };
    assert_eq!(read_reading(&more), (taken, example()));
}

#[test]
fn malformed_readings() {
    let changes = [
        ("cell=0", "Cell=0"),
        ("cell=0", " cell=0"),
        ("cell=0", "cell=00"),
        ("cell=0", "cell=-0"),
        ("cell=0 life=0", "life=0 cell=0"),
        (" life", "  life"),
        (" life", "\tlife"),
        ("rain=50800", "rain=050800"),
        ("rain=50800", "rain=4294967296"),
        ("rain=50800", "rain"),
        ("rain=50800", "rain="),
        ("rain=50800 ", ""),
        ("410c0000", "410C0000"),
        ("\n", "\r\n"),
        ("410c0000", "410c000"),
        ("410c0000", "0410c0000"),
        ("410c0000", "+10c0000"),
        ("\n", " \n"),
        ("410c0000", "410c000g"),
        ("amc=2", "amc=+2"),
        ("amc=2", "amc=2 amc=2"),
        ("\n", ""),
        ("amc=2", "amc=\u{0662}"),
        ("septic=1000", "septic=1000\n"),
    ];
    for (from, to) in changes {
        assert!(READING.contains(from));
        assert!(reading_trouble(READING.replacen(from, to, 1).as_bytes()), "{from:?} to {to:?}");
    }
    assert!(reading_trouble(b""));
    assert!(reading_trouble(b"\xff\n"));
    let fits = READING.replace("50800", "4294967295");
    assert_eq!(read_reading(fits.as_bytes()).1.rain, u32::MAX);
}

#[test]
fn writing_a_card() {
    let site = card(1, &[1_000_000, 2_000_000]);
    let mut buffer = [b'.'; 200];
    assert_eq!(write_card(&site, &PLOT, &mut buffer), (0, CARD.len()));
    assert_eq!(&buffer[..CARD.len()], CARD);
    assert!(buffer[CARD.len()..].iter().all(|byte| *byte == b'.'));
    let mut exact = vec![0; CARD.len()];
    assert_eq!(write_card(&site, &PLOT, &mut exact), (0, CARD.len()));
}

#[test]
fn writing_a_card_is_refused_in_order() {
    let mut buffer = [b'.'; 20];
    let mut unused = card(1, &[7]);
    unused.depths[1] = 1;
    let thirty_one = Card { delays: 31, ..card(1, &[]) };
    for none in [card(0, &[]), card(257, &[]), unused, thirty_one] {
        assert_eq!(write_card(&none, &PLOT[..4], &mut buffer), (12, 0));
    }
    let site = card(1, &[0]);
    assert_eq!(write_card(&site, &PLOT[..4], &mut buffer), (2, 0));
    assert_eq!(write_card(&site, &[-1; 6], &mut buffer), (2, 0));
    let mut room = [b'.'; 200];
    for place in 1..5 {
        for wrong in [-1, 4_294_967_296] {
            let mut soil = PLOT;
            soil[place] = wrong;
            assert_eq!(write_card(&site, &soil, &mut room), (12, 0));
        }
    }
    assert_eq!(write_card(&site, &PLOT, &mut buffer), (12, 0));
    assert_eq!((buffer, room), ([b'.'; 20], [b'.'; 200]));
    assert_eq!(write_card(&site, &[i64::MIN, 0, 0, 0, 4_294_967_295], &mut room).0, 0);
}

#[test]
fn writing_a_reading() {
    let mut buffer = [b'.'; 200];
    assert_eq!(write_reading(&example(), &mut buffer), (0, READING.len()));
    assert_eq!(&buffer[..READING.len()], READING.as_bytes());
    assert!(buffer[READING.len()..].iter().all(|byte| *byte == b'.'));
    let mut short = vec![b'.'; READING.len() - 1];
    assert_eq!(write_reading(&example(), &mut short), (12, 0));
    assert!(short.iter().all(|byte| *byte == b'.'));
}
