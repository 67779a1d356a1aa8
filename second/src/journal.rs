//! The program `waterbook`: a card, readings and voids in, a book of answers out.

use crate::numbers::{Card, ROW, SOIL};
use crate::sheet::Sheet;
use crate::step::{clear, enter};
use crate::text::{answer_line, read_card, read_entry, sheet_line};

/// The most bytes a journal may have.
pub const LONGEST: usize = 65_536;

/// The whole book of a journal.
pub fn waterbook(input: &[u8]) -> Vec<u8> {
    if input.len() > LONGEST {
        return b"code=12 line=0\n".to_vec();
    }
    let mut soil = [0i64; SOIL * 256];
    let (taken, card) = read_card(input, &mut soil);
    if taken.number != 0 {
        return stop(taken.line).into_bytes();
    }
    let cells = card.cells as usize;
    let mut rows = vec![0u32; ROW * cells];
    let refused = clear(&card, &mut rows);
    if refused != 0 {
        return format!("code={refused}\n").into_bytes();
    }
    let entries = &input[taken.bytes..];
    answers(&card, &soil[..SOIL * cells], &mut rows, entries).into_bytes()
}

/// The line printed at a malformed line of the input.
fn stop(line: u32) -> String {
    format!("code=12 line={line}\n")
}

/// A line per reading or void and the sheet, or a stop at the first malformed line.
fn answers(card: &Card, soil: &[i64], rows: &mut [u32], entries: &[u8]) -> String {
    let mut book = String::new();
    let mut sheet = Sheet::default();
    let mut rest = entries;
    // Line 1 is the card's own, then a line per cell.
    let mut line = card.cells + 2;
    while !rest.is_empty() {
        let Some((entry, bytes)) = read_entry(rest) else {
            return book + &stop(line);
        };
        let (number, amounts) = enter(card, soil, rows, &entry);
        book += &answer_line(entry.turn().cell, number, &amounts);
        // A refused answer is not addable, and the sheet stays as it came.
        (sheet, _) = sheet.add(number, &amounts);
        rest = &rest[bytes..];
        line += 1;
    }
    book + &sheet_line(&sheet)
}
