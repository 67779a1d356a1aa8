//! Whole journals: in one call of the library, and through the program on its standard input.

use crate::lent::{Lent, equal, same};
use crate::shares;
use crate::tally::Tally;
use crate::texts::shown;
use crate::waterbook::{CELLS, LONGEST, SOIL, book_room, raw};
use second::journal::waterbook as second_book;
use second::made::dice::Dice;
use second::made::{Kind, journal_of_kind};
use second::text::read_card;
use std::io::{Read, Write};
use std::process::{Command, Stdio};
use std::time::Duration;
use std::{io, thread};

/// What journals must be met for.
pub const JOURNALS: &[&str] = &[
    "fair site",
    "wet site",
    "card that clearing refuses",
    "soil numbers out of range",
    "damaged",
    "near the longest, or longer",
    "book with its sheet",
    "stopped at the card's lines",
    "stopped below the card",
    "too long",
    "clearing refused",
    "void in a book, nothing released",
    "void in a book, water released",
    "void in a book, refused",
    "void at which a book stops",
    "buffer with exactly the room",
    "buffer with more room",
    "buffer without the room",
    "program: whole input at once",
    "program: input in pieces",
];

/// The name of a journal's kind.
fn kind_name(kind: Kind) -> &'static str {
    match kind {
        Kind::Fair => "fair site",
        Kind::Wet => "wet site",
        Kind::FoulCard => "card that clearing refuses",
        Kind::FoulSoil => "soil numbers out of range",
        Kind::Damaged => "damaged",
        Kind::Measured => "near the longest, or longer",
    }
}

/// How a book ends.
fn ending(book: &[u8]) -> &'static str {
    let text = String::from_utf8_lossy(book);
    let last = text.lines().last().unwrap_or("");
    if last.starts_with("steps=") {
        "book with its sheet"
    } else if last == "code=12 line=0" {
        "too long"
    } else if !last.starts_with("code=12 ") {
        "clearing refused"
    } else if text.lines().count() == 1 {
        "stopped at the card's lines"
    } else {
        "stopped below the card"
    }
}

/// Meet what the voids of a journal came to; the lines after the card have a line of the book each.
fn meet_voids(journal: &[u8], book: &[u8], tally: &mut Tally) {
    let (card, _) = read_card(journal, &mut [0; SOIL * CELLS]);
    if card.number != 0 || book == b"code=12 line=0\n" || book == b"code=1\n" {
        return;
    }
    for (line, answer) in lines(&journal[card.bytes..]).into_iter().zip(lines(book)) {
        let has = |word: &[u8]| answer.split(|byte| *byte == b' ').any(|each| each == word);
        let name = match has(b"code=0") {
            _ if !line.starts_with(b"void") => continue,
            true if has(b"release=0") => "void in a book, nothing released",
            true => "void in a book, water released",
            false if has(b"code=12") => "void at which a book stops",
            false => "void in a book, refused",
        };
        tally.meet("journals", name);
    }
}

/// Meet all numbers in a book.
fn meet_numbers(book: &[u8], tally: &mut Tally) {
    let words = book.split(|byte| *byte == b' ' || *byte == b'\n');
    for digits in words.filter_map(|word| word.strip_prefix(b"code=")) {
        let number = digits.iter().fold(0, |n, digit| 10 * n + u32::from(digit - b'0'));
        tally.number("waterbook", number);
    }
}

/// The journal at a place, with its book by the second program.
fn made(seed: u64, place: u64, tally: &mut Tally) -> (Vec<u8>, Vec<u8>) {
    let (kind, journal) = journal_of_kind(seed, place);
    let book = second_book(&journal);
    tally.meet("journals", kind_name(kind));
    tally.meet("journals", ending(&book));
    meet_numbers(&book, tally);
    meet_voids(&journal, &book, tally);
    if journal.len() <= LONGEST {
        shares::meet("shares in journals", &journal, tally);
    }
    (journal, book)
}

/// A journal through the library.
pub fn by_call(dice: &mut Dice, seed: u64, place: u64, tally: &mut Tally) -> Result<(), String> {
    let (journal, book) = made(seed, place, tally);
    let room = book_room(journal.len());
    let (length, name) = match dice.below(8) {
        0 => (room - 1, "buffer without the room"),
        1 => (dice.place(room), "buffer without the room"),
        2..=4 => (room + 1 + dice.place(3000), "buffer with more room"),
        _ => (room, "buffer with exactly the room"),
    };
    tally.meet("journals", name);
    let mut buffer = vec![dice.pick(b"\0.\xff\n="); length];
    let (text, mut lent) = (Lent::new(&journal, b'#'), Lent::new(&buffer, b' '));
    let answered = raw::book(text.held(), lent.slice());
    let wanted = if length < room { 0 } else { book.len() };
    buffer[..wanted].copy_from_slice(&book[..wanted]);
    tally.journals += 1;
    same("journal", &text, &journal)
        .and_then(|()| told(&journal, &lent.held()[..answered.min(length)], &book[..wanted]))
        .and_then(|()| equal("length", answered, wanted))
        .and_then(|()| same("buffer", &lent, &buffer))
        .map_err(|what| format!("book of journal {place}, buffer of {length}\n{what}"))
}

/// The first lines in which two books differ, with the journal's line.
fn told(journal: &[u8], library: &[u8], second: &[u8]) -> Result<(), String> {
    if library == second {
        return Ok(());
    }
    let (ours, theirs) = (lines(library), lines(second));
    let place = (0..ours.len()).find(|p| ours.get(*p) != theirs.get(*p)).unwrap_or(ours.len());
    let line = |lines: &[&[u8]]| lines.get(place).map_or("nothing".to_string(), |l| shown(l));
    let start = shown(&journal[..journal.len().min(3000)]);
    let [proved, wanted] = [line(&ours), line(&theirs)];
    Err(format!("book line {}:\n  proved {proved}\n  second {wanted}\njournal\n{start}", place + 1))
}

/// The lines of a text, each with its LF.
fn lines(text: &[u8]) -> Vec<&[u8]> {
    text.split_inclusive(|byte| *byte == b'\n').collect()
}

/// A journal through the program.
pub fn by_program(
    dice: &mut Dice,
    (seed, place): (u64, u64),
    program: &str,
    tally: &mut Tally,
) -> Result<(), String> {
    let (journal, book) = made(seed, place, tally);
    let pieces = if dice.once_in(4) { 2 + dice.place(3) } else { 1 };
    let manner = ["program: input in pieces", "program: whole input at once"];
    tally.meet("journals", manner[usize::from(pieces == 1)]);
    tally.runs += 1;
    let printed = printed_by(program, &journal, pieces)
        .map_err(|trouble| format!("{program} could not be run: {trouble}"))?;
    told(&journal, &printed, &book)
        .map_err(|what| format!("waterbook on journal {place}, in {pieces} pieces\n{what}"))
}

/// What the program prints for a journal that comes in so many pieces.
fn printed_by(program: &str, journal: &[u8], pieces: usize) -> io::Result<Vec<u8>> {
    let mut child = Command::new(program).stdin(Stdio::piped()).stdout(Stdio::piped()).spawn()?;
    let (mut stdin, stdout) = (child.stdin.take(), child.stdout.take());
    let mut printed = Vec::new();
    thread::scope(|scope| {
        scope.spawn(|| {
            for piece in journal.chunks(journal.len() / pieces + 1) {
                // A program that has read enough may close its input early.
                let _ = stdin.as_mut().map(|input| input.write_all(piece));
                if pieces > 1 {
                    thread::sleep(Duration::from_millis(1));
                }
            }
            drop(stdin.take());
        });
        stdout.map_or(Ok(0), |mut output| output.read_to_end(&mut printed))
    })?;
    child.wait()?;
    Ok(printed)
}
