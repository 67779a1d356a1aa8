//! The share in the text of a card, and in books.

use super::{card, PLOT};
use crate::journal::waterbook;
use crate::made::{journal, journal_of_kind, Kind};
use crate::numbers::{Card, USUAL_SHARE};
use crate::text::{read_card, write_card, Taken};

const FIRST: &str = "cells=1 delays=2 depth=1000000 depth=2000000";
const BARE: &str = "cells=1 delays=0";
const SOIL: &str = "top=10000000 etdepth=1500000 vadpor=200 leak=100000 cn=80\n";
const READING: &str =
    "cell=0 life=0 count=0 rain=50800 irrig=0 septic=1000 etmin=2000 pet=5000 amc=2 head=410c0000\n";

/// Shares that a text can name, in range and not.
const NAMED: [u32; 13] = [0, 1, 4, 5, 6, 10, 19, 21, 22, 100, 276, 1 << 31, u32::MAX];

/// The line at which a card text is malformed, 0 if it isn't.
fn trouble(text: &str) -> u32 {
    let mut soil = [9; 20];
    let (taken, read) = read_card(text.as_bytes(), &mut soil);
    if taken.number != 0 {
        assert_eq!((taken.number, taken.bytes, read, soil), (12, 0, Card::ZEROS, [9; 20]));
    }
    taken.line
}

/// The text of a card with this after its last depth.
fn with(first: &str, share: &str) -> String {
    format!("{first}{share}\n{SOIL}")
}

/// The share that a card's text gives, and all else as it stands there.
fn read(first: &str, share: &str) -> u32 {
    let (text, mut soil) = (with(first, share), [0; 5]);
    let (taken, read) = read_card(text.as_bytes(), &mut soil);
    assert_eq!(taken, Taken { number: 0, bytes: text.len(), line: 0 });
    let depths: &[u32] = if first == BARE { &[] } else { &[1_000_000, 2_000_000] };
    assert_eq!(Card { share: 20, ..read }, card(1, depths));
    assert_eq!(soil, PLOT);
    read.share
}

#[test]
fn a_missing_key_means_20() {
    assert_eq!([FIRST, BARE].map(|first| read(first, "")), [20, 20]);
}

#[test]
fn every_other_number_that_fits_is_read() {
    for share in NAMED {
        let key = format!(" share={share}");
        assert_eq!([FIRST, BARE].map(|first| read(first, &key)), [share; 2]);
    }
}

#[test]
fn malformed_shares() {
    let wrong = [
        " share=20",
        " share=020",
        " share=05",
        " share=00",
        " share=",
        " share",
        " share=-5",
        " share=-0",
        " share=+5",
        " share=4294967296",
        " share=4294967301",
        " share=18446744073709551621",
        " share=99999999999999999999999999999999999999999",
        " share=5.0",
        " share=5%",
        " share=0x5",
        " share=five",
        " share=\u{0665}",
        " share=5 ",
        " share=5\t",
        " share=5\r",
        " share= 5",
        " share =5",
        " share==5",
        " share5",
        " shares=5",
        " hare=5",
        " Share=5",
        " SHARE=5",
        "  share=5",
        "\tshare=5",
        "share=5",
        ",share=5",
        " ",
        " 5",
        " share=5 share=5",
        " share=5 share=6",
        " share=5 share=20",
        " share=20 share=5",
        " share=5 depth=3000000",
        " share=5 cn=80",
    ];
    for share in wrong {
        for first in [FIRST, BARE] {
            assert_eq!(trouble(&with(first, share)), 1, "{first}{share}");
        }
    }
}

#[test]
fn a_share_at_a_wrong_place() {
    let lines = [
        "share=5 cells=1 delays=2 depth=1000000 depth=2000000",
        "cells=1 share=5 delays=2 depth=1000000 depth=2000000",
        "cells=1 delays=2 share=5 depth=1000000 depth=2000000",
        "cells=1 delays=2 depth=1000000 share=5 depth=2000000",
        "cells=1 delays=2 depth=1000000 share=5",
        "cells=1 delays=2 share=5",
        "share=5 cells=1 delays=0",
        "cells=1 share=5 delays=0",
        "cells=1 share=5",
        "share=5",
    ];
    for line in lines {
        assert_eq!(trouble(&format!("{line}\n{SOIL}")), 1, "{line}");
    }
}

#[test]
fn a_share_on_another_line() {
    for share in ["share=5\n", " share=5\n", "share=5 ", " share=5 "] {
        assert_eq!(trouble(&format!("{BARE}\n{share}{SOIL}")), 2, "{share}");
    }
    assert_eq!(trouble(&format!("{BARE}\n{} share=5\n", SOIL.trim_end())), 2);
    // What follows the card is not looked at.
    assert_eq!(trouble(&format!("{BARE}\n{SOIL}share=5\n")), 0);
}

#[test]
fn the_line_must_end_behind_the_share() {
    for text in ["cells=1 delays=0 share=5", "cells=1 delays=0 share=", "cells=1 delays=0 share"] {
        assert_eq!(trouble(text), 1, "{text}");
    }
    assert_eq!(trouble("cells=1 delays=0 share=5\n"), 2);
}

/// The text that is written for a card, and that no shorter buffer takes it.
fn written(site: &Card) -> String {
    let mut buffer = [b'.'; 700];
    let (number, length) = write_card(site, &PLOT, &mut buffer);
    assert_eq!(number, 0);
    assert!(buffer[length..].iter().all(|byte| *byte == b'.'));
    let (mut exact, mut short) = (vec![b'.'; length], vec![b'.'; length - 1]);
    assert_eq!(write_card(site, &PLOT, &mut exact), (0, length));
    assert_eq!(write_card(site, &PLOT, &mut short), (12, 0));
    assert!(exact == buffer[..length] && short.iter().all(|byte| *byte == b'.'));
    String::from_utf8(exact).unwrap()
}

#[test]
fn writing_a_share() {
    for (first, depths) in [(FIRST, &[1_000_000, 2_000_000][..]), (BARE, &[])] {
        assert_eq!(written(&card(1, depths)), with(first, ""));
        for share in NAMED {
            let site = Card { share, ..card(1, depths) };
            assert_eq!(written(&site), with(first, &format!(" share={share}")));
        }
    }
}

#[test]
fn there_and_back() {
    for share in (0..300).chain(NAMED) {
        for delays in [0, 1, 2, 30] {
            let depths: Vec<u32> = (1..=delays).collect();
            let site = Card { share, ..card(1, &depths) };
            let (text, mut soil) = (written(&site), [0; 5]);
            let taken = Taken { number: 0, bytes: text.len(), line: 0 };
            assert_eq!(read_card(text.as_bytes(), &mut soil), (taken, site));
            assert_eq!(text.contains("share"), share != USUAL_SHARE);
        }
    }
}

/// The longest first line and 256 lines of soil numbers, each as long as can be.
#[test]
fn the_longest_card() {
    let mut site = Card { cells: 256, delays: 30, depths: [u32::MAX; 30], share: 20 };
    let most = i64::from(u32::MAX);
    let soil = [i64::MIN, most, most, most, most].repeat(256);
    let mut buffer = vec![0; 30_000];
    assert_eq!(write_card(&site, &soil, &mut buffer), (0, 24_082));
    site.share = u32::MAX;
    assert_eq!(write_card(&site, &soil, &mut buffer), (0, 24_099));
}

/// The book of a journal whose card has this after its last depth.
fn book(share: &str, entries: &str) -> String {
    let journal = with(FIRST, share) + entries;
    String::from_utf8(waterbook(journal.as_bytes())).unwrap()
}

/// 20,410 run off, plants take 2,000 and 28,390 wait; all else is as in the page's example.
#[test]
fn a_book_with_a_share() {
    let dry = READING.replace("count=0 rain=50800", "count=1 rain=0").replace("=1000 ", "=0 ");
    let wanted = "\
cell=0 code=0 inflow=51800 runoff=20410 etvad=2000 etstor=0 etsat=500 drain=0 release=0 stored=28390 recharge=500 left=28390
cell=0 code=0 inflow=0 runoff=0 etvad=0 etstor=0 etsat=833 drain=0 release=28390 stored=0 recharge=27557 left=0
steps=2 inflow=51800 runoff=20410 etvad=2000 etstor=0 etsat=1333 drain=0 release=28390 stored=28390 recharge=28057
";
    assert_eq!(book(" share=5", &[READING, &dry].concat()), wanted);
    assert_ne!(book("", &[READING, &dry].concat()), wanted);
}

#[test]
fn a_book_with_a_share_out_of_range() {
    for share in [" share=0", " share=4", " share=21", " share=4294967295"] {
        assert_eq!(book(share, READING), "code=1\n");
        assert_eq!(book(share, "nonsense"), "code=1\n");
        // The whole card is read first.
        let broken = with(FIRST, share).replace(" cn=", " Cn=") + READING;
        assert_eq!(waterbook(broken.as_bytes()), b"code=12 line=2\n");
    }
}

#[test]
fn a_book_with_a_malformed_share() {
    for share in [" share=20", " share=05", "  share=5", " share=5 share=5"] {
        assert_eq!(book(share, READING), "code=12 line=1\n");
    }
    let late = format!("{}share=5\n", with(FIRST, "") + READING);
    let told = String::from_utf8(waterbook(late.as_bytes())).unwrap();
    assert!(told.ends_with(" left=34513\ncode=12 line=4\n"), "{told}");
}

/// Made journals name shares in and out of range and damaged ones, and half of the fair ones name none.
#[test]
fn made_shares_are_met() {
    let (mut shares, mut fair, mut bare) = ([0; 26], 0, 0);
    let (mut large, mut malformed) = (0, 0);
    for place in 0..4000 {
        let (kind, bytes) = journal_of_kind(2026, place);
        let (taken, site) = read_card(&bytes, &mut [0; 1280]);
        let named = bytes.windows(6).any(|six| six == b"share=");
        if taken.number == 0 {
            shares.get_mut(site.share as usize).map_or_else(|| large += 1, |times| *times += 1);
        }
        malformed += u32::from(taken.line == 1 && named);
        fair += u32::from(kind == Kind::Fair);
        bare += u32::from(kind == Kind::Fair && !named);
        assert!(kind != Kind::Fair || site.in_range());
    }
    assert!(shares.iter().all(|times| *times > 3), "{shares:?}");
    assert!(shares[20] > 1000 && shares[5] > 200, "{shares:?}");
    assert!(large > 10 && malformed > 60, "{large} {malformed}");
    assert!(2 * bare > fair - fair / 8 && 2 * bare < fair + fair / 4, "{bare} of {fair}");
}

/// A made journal may name the usual share, and then it stops at its first line.
#[test]
fn a_made_journal_with_20_written_out() {
    let stops = |bytes: &[u8]| waterbook(bytes) == b"code=12 line=1\n";
    let ends = |bytes: &[u8]| bytes.split(|b| *b == b'\n').next().unwrap().ends_with(b" share=20");
    let journals: Vec<Vec<u8>> = (0..4000).map(|place| journal(2027, place)).collect();
    let named: Vec<&Vec<u8>> = journals.iter().filter(|bytes| ends(bytes)).collect();
    assert!(named.len() > 3 && named.iter().all(|bytes| stops(bytes)), "{}", named.len());
}
