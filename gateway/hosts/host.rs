//! A host in Rust: keeps the book of the rules page's example, with a day of rain and a void after it, through the
//! proved library, collects what ran off and drained, and moves its rows back and over; and once more with a share of 5
//! on its card.

#[allow(dead_code)]
#[path = "../waterbook.rs"]
mod waterbook;

use std::process::ExitCode;
use waterbook::{ANSWER_TEXT, Answer, CELLS, Card, OLD_ROW, ROW, Refusal};
use waterbook::{SHEET, SHEET_TEXT, SOIL, Sheet, Sums, USUAL_SHARE, book_room};

/// A card without its line's end.
const CARD_LINE: &str = "cells=1 delays=2 depth=1000000 depth=2000000";
/// The lines behind it: soil numbers, four readings, a void.
const OTHER_LINES: &str = "\
top=10000000 etdepth=1500000 vadpor=200 leak=100000 cn=80
cell=0 life=0 count=0 rain=50800 irrig=0 septic=1000 etmin=2000 pet=5000 amc=2 head=410c0000
cell=0 life=0 count=1 rain=0 irrig=0 septic=0 etmin=2000 pet=5000 amc=2 head=410c0000
cell=0 life=0 count=1 rain=0 irrig=0 septic=0 etmin=2000 pet=5000 amc=2 head=410c0000
cell=0 life=0 count=2 rain=50800 irrig=0 septic=0 etmin=2000 pet=5000 amc=2 head=410c0000
void cell=0 life=0 count=3
";
/// Its book with the share that a card without one has.
const BOOK: &str = "\
cell=0 code=0 inflow=51800 runoff=14287 etvad=2000 etstor=0 etsat=500 drain=0 release=0 stored=34513 recharge=500 left=34513
cell=0 code=0 inflow=0 runoff=0 etvad=0 etstor=0 etsat=833 drain=0 release=34513 stored=0 recharge=33680 left=0
cell=0 code=6 inflow=0 runoff=0 etvad=0 etstor=0 etsat=0 drain=0 release=0 stored=0 recharge=0 left=0
cell=0 code=0 inflow=50800 runoff=14287 etvad=2000 etstor=0 etsat=500 drain=0 release=0 stored=34513 recharge=-500 left=34513
cell=0 code=0 inflow=0 runoff=0 etvad=0 etstor=0 etsat=0 drain=0 release=34513 stored=0 recharge=34513 left=0
steps=4 inflow=102600 runoff=28574 etvad=4000 etstor=0 etsat=1833 drain=0 release=69026 stored=69026 recharge=68193
";
/// Its book with a share of 5: more of the rain runs off, and less waits.
const BOOK_OF_5: &str = "\
cell=0 code=0 inflow=51800 runoff=20410 etvad=2000 etstor=0 etsat=500 drain=0 release=0 stored=28390 recharge=500 left=28390
cell=0 code=0 inflow=0 runoff=0 etvad=0 etstor=0 etsat=833 drain=0 release=28390 stored=0 recharge=27557 left=0
cell=0 code=6 inflow=0 runoff=0 etvad=0 etstor=0 etsat=0 drain=0 release=0 stored=0 recharge=0 left=0
cell=0 code=0 inflow=50800 runoff=20410 etvad=2000 etstor=0 etsat=500 drain=0 release=0 stored=28390 recharge=-500 left=28390
cell=0 code=0 inflow=0 runoff=0 etvad=0 etstor=0 etsat=0 drain=0 release=28390 stored=0 recharge=28390 left=0
steps=4 inflow=102600 runoff=40820 etvad=4000 etstor=0 etsat=1833 drain=0 release=56780 stored=56780 recharge=55947
";

/// A site: its card, soil numbers and stored rows.
struct Site {
    card: Card,
    soil: Vec<i64>,
    rows: Vec<u32>,
}

/// Read the card, clear the rows, and hand back the entries' text.
fn open(journal: &[u8]) -> Result<(Site, &[u8]), Refusal> {
    let mut soil = vec![0; SOIL * CELLS];
    let (card, taken) = waterbook::read_card(journal, &mut soil)?;
    let cells = card[0] as usize;
    soil.truncate(SOIL * cells);
    let mut rows = vec![0; ROW * cells];
    waterbook::clear(&card, &mut rows)?;
    Ok((Site { card, soil, rows }, &journal[taken..]))
}

/// One entry, a void or a reading: its cell, its answer, and the bytes taken.
fn enter(site: &mut Site, text: &[u8]) -> Result<(u32, Answer, usize), Refusal> {
    let (card, soil, rows) = (&site.card, &site.soil, &mut site.rows);
    if let Ok((notice, taken)) = waterbook::read_void(text) {
        return Ok((notice[0], waterbook::void(card, soil, rows, &notice), taken));
    }
    let (reading, taken) = waterbook::read_reading(text)?;
    Ok((reading[0], waterbook::step(card, soil, rows, &reading), taken))
}

/// Step through the entries: a line for each, then the sheet, as text and in numbers.
fn keep(site: &mut Site, mut entries: &[u8]) -> Result<(Vec<u8>, Sheet), Refusal> {
    let mut book = Vec::new();
    let mut sheet = [0; SHEET];
    while !entries.is_empty() {
        let (cell, answer, taken) = enter(site, entries)?;
        entries = &entries[taken..];
        let mut line = [0; ANSWER_TEXT];
        let length = waterbook::write_answer(cell, &answer, &mut line)?;
        book.extend(&line[..length]);
        if answer.is_ok() {
            waterbook::add(&mut sheet, &answer)?;
        }
    }
    let mut line = [0; SHEET_TEXT];
    let length = waterbook::write_sheet(&sheet, &mut line)?;
    book.extend(&line[..length]);
    Ok((book, sheet))
}

/// Collect plot 0, until nothing is left; then move the rows back to the form of version 3 and over again, which before
/// was refused. What was collected first, or nothing where something else came than it should.
fn collect_and_move(site: &mut Site) -> Result<Option<Sums>, Refusal> {
    let Site { card, rows, .. } = site;
    let (mut old, mut over) = (vec![0; rows.len() / ROW * OLD_ROW], vec![0; rows.len()]);
    let early = waterbook::shrink(card, rows, &mut old);
    let (sums, rest) = (waterbook::collect(card, rows, 0)?, waterbook::collect(card, rows, 0)?);
    waterbook::shrink(card, rows, &mut old)?;
    waterbook::grow(card, &old, &mut over)?;
    let right = early == Err(Refusal::NotCollected) && rest == [0, 0] && over == *rows;
    Ok(right.then_some(sums))
}

/// The book of a journal in one call.
fn in_one_call(journal: &str) -> String {
    let mut whole = vec![0; book_room(journal.len())];
    let length = waterbook::book(journal.as_bytes(), &mut whole).unwrap_or(0);
    String::from_utf8_lossy(&whole[..length]).into_owned()
}

/// Does the host keep this book over a card with this share, whose line ends so?
fn keeps(share: u32, end: &str, book: &str) -> Result<bool, Refusal> {
    let journal = format!("{CARD_LINE}{end}\n{OTHER_LINES}");
    let (mut site, entries) = open(journal.as_bytes())?;
    let (kept, sheet) = keep(&mut site, entries)?;
    let (kept, whole) = (String::from_utf8_lossy(&kept), in_one_call(&journal));
    print!("{kept}");
    if site.card != waterbook::card(1, &[1_000_000, 2_000_000], share)? {
        eprintln!("host.rs: the card read is not the one made from its parts");
        return Ok(false);
    }
    if kept != book || whole != book {
        eprintln!("host.rs: the book should have been\n{book}and in one call it is\n{whole}");
        return Ok(false);
    }
    println!("host.rs: the book with a share of {share}, by single calls and in one");
    let (collected, wanted) = (collect_and_move(&mut site)?, [sheet[2], sheet[6]]);
    if collected.map(|sums| sums.map(|sum| sum as i64)) != Some(wanted) {
        eprintln!(
            "host.rs: {wanted:?} should have been collected, and the rows moved back and over"
        );
        return Ok(false);
    }
    println!("host.rs: collected {wanted:?}, moved back and over");
    Ok(true)
}

fn main() -> ExitCode {
    let examples = [(USUAL_SHARE, "", BOOK), (5, " share=5", BOOK_OF_5)];
    for (share, end, book) in examples {
        match keeps(share, end, book) {
            Ok(true) => {}
            Ok(false) => return ExitCode::FAILURE,
            Err(refusal) => {
                let number = refusal.number();
                eprintln!("host.rs: the example was refused with {number}: {refusal}");
                return ExitCode::FAILURE;
            }
        }
    }
    ExitCode::SUCCESS
}
