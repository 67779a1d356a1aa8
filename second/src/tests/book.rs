//! Whole books.

use crate::journal::waterbook;
use crate::made::dice::Dice;
use crate::made::measure::exactly;

const CARD: &str = "cells=1 delays=2 depth=1000000 depth=2000000\n\
top=10000000 etdepth=1500000 vadpor=200 leak=100000 cn=80\n";
const FIRST: &str = "cell=0 life=0 count=0 rain=50800 irrig=0 septic=1000 etmin=2000 pet=5000 amc=2 head=410c0000\n";
const SECOND: &str =
    "cell=0 life=0 count=1 rain=0 irrig=0 septic=0 etmin=2000 pet=5000 amc=2 head=410c0000\n";
const BOOK: &str = "\
cell=0 code=0 inflow=51800 runoff=14287 etvad=2000 etstor=0 etsat=500 drain=0 release=0 stored=34513 recharge=500 left=34513
cell=0 code=0 inflow=0 runoff=0 etvad=0 etstor=0 etsat=833 drain=0 release=34513 stored=0 recharge=33680 left=0
cell=0 code=6 inflow=0 runoff=0 etvad=0 etstor=0 etsat=0 drain=0 release=0 stored=0 recharge=0 left=0
steps=2 inflow=51800 runoff=14287 etvad=2000 etstor=0 etsat=1333 drain=0 release=34513 stored=34513 recharge=34180
";
const NOTHING: &str =
    "steps=0 inflow=0 runoff=0 etvad=0 etstor=0 etsat=0 drain=0 release=0 stored=0 recharge=0\n";

/// The book of a journal, as text.
fn book(journal: &str) -> String {
    String::from_utf8(waterbook(journal.as_bytes())).unwrap()
}

#[test]
fn the_pages_example() {
    assert_eq!(book(&[CARD, FIRST, SECOND, SECOND].concat()), BOOK);
}

#[test]
fn a_card_alone() {
    assert_eq!(book(CARD), NOTHING);
}

#[test]
fn malformed_lines_count_over_the_whole_input() {
    assert_eq!(book(""), "code=12 line=1\n");
    assert_eq!(book("cells=1 delays=0\n"), "code=12 line=2\n");
    assert_eq!(book(CARD.trim_end()), "code=12 line=2\n");
    assert_eq!(book(&[CARD, "\n"].concat()), "code=12 line=3\n");
    let first = BOOK.lines().next().unwrap();
    assert_eq!(
        book(&[CARD, FIRST, SECOND.trim_end()].concat()),
        format!("{first}\ncode=12 line=4\n")
    );
    assert_eq!(book(&[CARD, FIRST, "\n", SECOND].concat()), format!("{first}\ncode=12 line=4\n"));
}

#[test]
fn clearing_refused() {
    let foul = CARD.replace("depth=2000000", "depth=1000000");
    assert_eq!(book(&[&foul, FIRST].concat()), "code=1\n");
    assert_eq!(book(&[&foul, "nonsense"].concat()), "code=1\n");
    // The whole card is read before it is cleared.
    assert_eq!(book(foul.trim_end()), "code=12 line=2\n");
}

#[test]
fn refusals_are_printed_with_the_cell_as_read() {
    let far = FIRST.replace("cell=0", "cell=4294967295");
    let line = "cell=4294967295 code=3 inflow=0 runoff=0 etvad=0 etstor=0 etsat=0 drain=0 release=0 stored=0 recharge=0 left=0\n";
    assert_eq!(book(&[CARD, &far].concat()), format!("{line}{NOTHING}"));
}

#[test]
fn the_longest_journal() {
    let fits = exactly(&mut Dice::new(5), 65_536);
    let (long, longer) = (exactly(&mut Dice::new(5), 65_537), exactly(&mut Dice::new(5), 70_000));
    assert_eq!((fits.len(), long.len(), longer.len()), (65_536, 65_537, 70_000));
    assert!(String::from_utf8(waterbook(&fits)).unwrap().contains("\nsteps="));
    assert_eq!(waterbook(&long), b"code=12 line=0\n");
    assert_eq!(waterbook(&longer), b"code=12 line=0\n");
    assert_eq!(waterbook(&vec![b'\n'; 65_537]), b"code=12 line=0\n");
    assert_eq!(waterbook(&vec![b'\n'; 65_536]), b"code=12 line=1\n");
}

/// A gauge froze: its reading stays refused and each later one is a gap, until a void uses up the count.
#[test]
fn a_day_that_cannot_be_mended() {
    let frozen = SECOND.replace("pet=5000", "pet=4294967295");
    let [third, fourth] = [2, 3].map(|count| SECOND.replace("count=1", &format!("count={count}")));
    let void = "void cell=0 life=0 count=1\n";
    let journal = [CARD, FIRST, &frozen, &third, &frozen, &fourth, void, &third, void].concat();
    let zeros =
        "inflow=0 runoff=0 etvad=0 etstor=0 etsat=0 drain=0 release=0 stored=0 recharge=0 left=0";
    let first = BOOK.lines().next().unwrap();
    let refused = [8, 7, 8, 7].map(|number| format!("cell=0 code={number} {zeros}\n")).concat();
    let mended = "\
cell=0 code=0 inflow=0 runoff=0 etvad=0 etstor=0 etsat=0 drain=0 release=34513 stored=0 recharge=34513 left=0
cell=0 code=0 inflow=0 runoff=0 etvad=0 etstor=0 etsat=833 drain=0 release=0 stored=0 recharge=-833 left=0
";
    let sheet = BOOK.lines().last().unwrap().replace("steps=2", "steps=3");
    let wanted = format!("{first}\n{refused}{mended}cell=0 code=6 {zeros}\n{sheet}\n");
    assert_eq!(book(&journal), wanted);
}

#[test]
fn a_void_alone() {
    let line = "cell=0 code=0 inflow=0 runoff=0 etvad=0 etstor=0 etsat=0 drain=0 release=0 stored=0 recharge=0 left=0\n";
    let sheet = NOTHING.replace("steps=0", "steps=1");
    assert_eq!(book(&[CARD, "void cell=0 life=7 count=0\n"].concat()), format!("{line}{sheet}"));
    let far = line.replace("cell=0 code=0", "cell=4294967295 code=3");
    let void = "void cell=4294967295 life=0 count=0\n";
    assert_eq!(book(&[CARD, void].concat()), format!("{far}{NOTHING}"));
}

#[test]
fn malformed_voids_stop_the_book() {
    let first = BOOK.lines().next().unwrap();
    let broken = [
        "void\n",
        "void cell=0 life=0 count=01\n",
        "VOID cell=0 life=0 count=1\n",
        "void  cell=0 life=0 count=1\n",
        "cell=0 life=0 count=1\n",
        "void cell=0 life=0 count=1",
    ];
    for void in broken {
        let stopped = format!("{first}\ncode=12 line=4\n");
        assert_eq!(book(&[CARD, FIRST, void].concat()), stopped, "{void:?}");
    }
    assert_eq!(book("void cell=0 life=0 count=0\n"), "code=12 line=1\n");
}
