//! The lines of readings and of voids: well-formed and damaged texts, buffers of any size.

use crate::lent::{Lent, equal, same};
use crate::numbers::{reading_numbers, reading_of, void_numbers, void_of};
use crate::tally::Tally;
use crate::texts::{blank, buffer_length, got_slice, numbers_slice, shown};
use crate::waterbook::{GOT, NOT_THE_COUNT, NOTICE, READING, READING_TEXT, VOID_TEXT, raw};
use crate::wild;
use second::made::damage::harm;
use second::made::dice::Dice;
use second::made::entries::void_bytes;
use second::made::readings::reading_bytes;
use second::text::{self, Taken};

/// What lines of readings, and those of voids, must be met for.
pub const LINES: &[&str] = &[
    "read",
    "read, bytes after it",
    "malformed",
    "malformed, a line of the other kind",
    "without LF",
    "written",
    "written, the longest",
    "written, buffer exactly as long",
    "buffer too short",
    "numbers of another count",
    "got slice of another length",
];

/// How a kind of line is read and written on both sides.
struct Kind {
    /// The heading of what is met, and the names of the two calls.
    heading: &'static str,
    reader: &'static str,
    writer: &'static str,
    /// The count of its numbers, and the longest line in bytes.
    width: usize,
    longest: usize,
    /// The library's calls, then the second's.
    read: fn(&[u8], &mut [u32], &mut [usize]) -> u32,
    write: fn(&[u32], &mut [u8], &mut [usize]) -> u32,
    second_read: fn(&[u8]) -> (Taken, Vec<u32>),
    second_write: fn(&[u32], &mut [u8]) -> (u32, usize),
    /// The text of such numbers.
    text: fn(&[u32]) -> Vec<u8>,
}

const READINGS: Kind = Kind {
    heading: "reading lines",
    reader: "read_reading",
    writer: "write_reading",
    width: READING,
    longest: READING_TEXT,
    read: raw::read_reading,
    write: raw::write_reading,
    second_read: |line| {
        let (taken, reading) = text::read_reading(line);
        (taken, reading_numbers(&reading).to_vec())
    },
    second_write: |numbers, buffer| text::write_reading(&reading_of(numbers), buffer),
    text: |numbers| reading_bytes(&reading_of(numbers)),
};

const VOIDS: Kind = Kind {
    heading: "void lines",
    reader: "read_void",
    writer: "write_void",
    width: NOTICE,
    longest: VOID_TEXT,
    read: raw::read_void,
    write: raw::write_void,
    second_read: |line| {
        let (taken, void) = text::read_void(line);
        (taken, void_numbers(&void).to_vec())
    },
    second_write: |numbers, buffer| text::write_void(&void_of(numbers), buffer),
    text: |numbers| void_bytes(&void_of(numbers)),
};

/// Read and write a reading's line and a void's on both sides.
pub fn read_and_write(dice: &mut Dice, tally: &mut Tally) -> Result<(), String> {
    for (kind, other) in [(&READINGS, &VOIDS), (&VOIDS, &READINGS)] {
        read(dice, kind, other, tally)?;
        write(dice, kind, tally)?;
    }
    Ok(())
}

/// The line of some numbers, well-formed or damaged, with or without more after it; now and then one of the other kind.
fn line(dice: &mut Dice, kind: &Kind, other: &Kind) -> Vec<u8> {
    let kind = if dice.once_in(8) { other } else { kind };
    let numbers: Vec<u32> = (0..kind.width).map(|_| wild::any(dice)).collect();
    let mut bytes = (kind.text)(&numbers);
    match dice.below(5) {
        0 => bytes.extend(b"cell=0 life=0\n"),
        1 => bytes.extend(b"void cell=0 life=0 count=0\n"),
        2 => bytes.extend(dice.roll().to_le_bytes()),
        _ => {}
    }
    for _ in 0..dice.pick(&[0, 0, 1, 1, 1, 2, 3]) {
        harm(dice, &mut bytes);
    }
    bytes
}

/// Read a line on both sides.
fn read(dice: &mut Dice, kind: &Kind, other: &Kind, tally: &mut Tally) -> Result<(), String> {
    let bytes = line(dice, kind, other);
    let (mut numbers, mut got) = (numbers_slice(dice, kind.width), got_slice(dice));
    let text = Lent::new(&bytes, b' ');
    let (mut lent_numbers, mut lent_got) = (Lent::new(&numbers, 7), Lent::new(&got, 9));
    let answered = (kind.read)(text.held(), lent_numbers.slice(), lent_got.slice());
    let mut number = NOT_THE_COUNT;
    if numbers.len() == kind.width && got.len() == GOT {
        let (taken, read) = (kind.second_read)(&bytes);
        (number, numbers) = (taken.number, read);
        got = vec![taken.bytes, taken.line as usize];
        tally.meet(kind.heading, read_as(&taken, &bytes, other));
    } else {
        meet_count(kind, &got, tally);
    }
    tally.number(kind.reader, number);
    tally.texts += 1;
    equal("number", answered, number)
        .and_then(|()| same("got", &lent_got, &got))
        .and_then(|()| same("numbers", &lent_numbers, &numbers))
        .and_then(|()| same("text", &text, &bytes))
        .map_err(|what| format!("{}\n{what}\ntext\n{}", kind.reader, shown(&bytes)))
}

/// What reading a line came to.
fn read_as(taken: &Taken, bytes: &[u8], other: &Kind) -> &'static str {
    match taken.number {
        0 if taken.bytes < bytes.len() => "read, bytes after it",
        0 => "read",
        _ if !bytes.contains(&b'\n') => "without LF",
        _ if (other.second_read)(bytes).0.number == 0 => "malformed, a line of the other kind",
        _ => "malformed",
    }
}

/// Meet a call that was refused for a slice's count of numbers.
fn meet_count(kind: &Kind, got: &[usize], tally: &mut Tally) {
    let short = got.len() != GOT;
    let name = if short { "got slice of another length" } else { "numbers of another count" };
    tally.meet(kind.heading, name);
}

/// Write a line on both sides.
fn write(dice: &mut Dice, kind: &Kind, tally: &mut Tally) -> Result<(), String> {
    let mut numbers = numbers_slice(dice, kind.width);
    if dice.once_in(20) {
        numbers.fill(u32::MAX);
    }
    let right = numbers.len() == kind.width;
    let length = buffer_length(dice, if right { (kind.text)(&numbers).len() } else { 90 });
    let (mut buffer, mut got) = (blank(dice, length), got_slice(dice));
    let lent_numbers = Lent::new(&numbers, 7);
    let (mut lent_buffer, mut lent_got) = (Lent::new(&buffer, b' '), Lent::new(&got, 9));
    let answered = (kind.write)(lent_numbers.held(), lent_buffer.slice(), lent_got.slice());
    let mut number = NOT_THE_COUNT;
    if right && got.len() == GOT {
        let (wanted, written) = (kind.second_write)(&numbers, &mut buffer);
        (number, got) = (wanted, vec![written, 0]);
        meet_written(kind, number, written, length, tally);
    } else {
        meet_count(kind, &got, tally);
    }
    tally.number(kind.writer, number);
    tally.texts += 1;
    equal("number", answered, number)
        .and_then(|()| same("got", &lent_got, &got))
        .and_then(|()| same("buffer", &lent_buffer, &buffer))
        .and_then(|()| same("numbers", &lent_numbers, &numbers))
        .map_err(|what| format!("{}\n{what}\nbuffer of {length}\n{numbers:?}", kind.writer))
}

/// Meet what writing a line came to.
fn meet_written(kind: &Kind, number: u32, written: usize, length: usize, tally: &mut Tally) {
    let name = match number {
        0 if written == length => "written, buffer exactly as long",
        0 => "written",
        _ => "buffer too short",
    };
    tally.meet(kind.heading, name);
    if written == kind.longest {
        tally.meet(kind.heading, "written, the longest");
    }
}
