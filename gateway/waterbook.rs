//! The proved water book of a site of plots ("cells"), for Rust.
//!
//! include/waterbook.h says in words what each number means; the order of the numbers is the same here. A record is an
//! array of its own width, a refused call an `Err` with its [`Refusal`]. [`raw`] has the same calls over slices of any
//! width, with the number as it comes. The library keeps nothing between calls: rows and sheet are the host's, and
//! STORING.md says when to store them, and when to [`collect`] the sums that rows keep. The header also says what a host
//! of 4.x has to change for 5.0.0: rain above 600,000 is refused, as [`Refusal::JammedBucket`]; and one of 3.x before
//! that: a row has 36 numbers in place of 32, and [`grow`] moves a site's rows over.
//!
//! rust/ is a package of this file: a firm's own package names it by path. Plain `rustc --edition 2024` takes this file
//! as a module and finds the library by `-L native=target/staticlib`, after `help/library.sh gateway`; hosts/host.rs is
//! such a host. Edition 2021 works too; 2015, which rustc takes unasked, does not.
//!
//! ```
//! use waterbook::{ANSWER_TEXT, CELLS, ROW, Refusal, SHARE_AT, SHEET, SOIL, USUAL_SHARE};
//!
//! let card_text = b"cells=1 delays=1 depth=1000000\n\
//!                   top=10000000 etdepth=1500000 vadpor=200 leak=100000 cn=80\n";
//! let mut soil = vec![0; SOIL * CELLS];
//! let (card, _) = waterbook::read_card(card_text, &mut soil)?;
//! soil.truncate(SOIL * card[0] as usize);
//! assert_eq!(card[SHARE_AT], USUAL_SHARE);
//! assert_eq!(Ok(card), waterbook::card(1, &[1_000_000], USUAL_SHARE));
//! let mut rows = vec![0; ROW * card[0] as usize];
//! waterbook::clear(&card, &mut rows)?;
//!
//! // Cell 0, life 0, count 0: 50.8 mm of rain over a water table at 8.75 m.
//! let reading = [0, 0, 0, 50_800, 0, 0, 2_000, 5_000, 2, 8.75f32.to_bits()];
//! let answer = waterbook::step(&card, &soil, &mut rows, &reading);
//! let mut line = [0; ANSWER_TEXT];
//! let length = waterbook::write_answer(reading[0], &answer, &mut line)?;
//! assert!(line[..length].starts_with(b"cell=0 code=0 inflow=50800 runoff=14287 "));
//! let mut sheet = [0; SHEET];
//! waterbook::add(&mut sheet, &answer)?;
//!
//! // The same reading again is old: it changes nothing.
//! let again = waterbook::step(&card, &soil, &mut rows, &reading);
//! assert_eq!(again, Err(Refusal::Old));
//!
//! // A first loss of 5 percent of storage and not 20, from the next reading on: more of the same rain runs off.
//! let fitted = waterbook::card(1, &[1_000_000], 5)?;
//! let next = [0, 0, 1, 50_800, 0, 0, 2_000, 5_000, 2, 8.75f32.to_bits()];
//! assert_eq!(waterbook::step(&fitted, &soil, &mut rows, &next)?[1], 20_410);
//!
//! // At the month's end, what ran off plot 0 and what drained from it; from then on the row counts anew.
//! assert_eq!(waterbook::collect(&card, &mut rows, 0), Ok([14_287 + 20_410, 0]));
//! assert_eq!(waterbook::collect(&card, &mut rows, 0), Ok([0, 0]));
//! # Ok::<(), Refusal>(())
//! ```

use core::fmt;

/// The version of the library; include/waterbook.h says what raises which part.
pub const VERSION_MAJOR: u32 = 5;
pub const VERSION_MINOR: u32 = 1;
pub const VERSION_PATCH: u32 = 2;
/// The version as one number.
pub const VERSION: u32 = 1_000_000 * VERSION_MAJOR + 1_000 * VERSION_MINOR + VERSION_PATCH;

/// Numbers on a card: cells, delays, 30 delay depths in µm, the share in percent.
pub const CARD: usize = 33;
/// Soil numbers per cell: top, etdepth, vadpor, leak, cn.
pub const SOIL: usize = 5;
/// Stored numbers per cell: life, next count, slots 1 to 30, the sums of runoff and of drainage, high and low of each.
pub const ROW: usize = 36;
/// Stored numbers per cell up to version 3: the same without the sums.
pub const OLD_ROW: usize = 32;
/// Sums that collecting a cell gives: runoff, drainage.
pub const SUMS: usize = 2;
/// Numbers in a reading: cell, life, count, rain, irrig, septic, etmin, pet, amc, the head's 32 bits.
pub const READING: usize = 10;
/// Numbers in the notice of a void: cell, life, count.
pub const NOTICE: usize = 3;
/// Amounts of an answer: inflow, runoff, etvad, etstor, etsat, drain, release, stored, recharge, left.
pub const AMOUNTS: usize = 10;
/// Numbers on a sheet: steps, then the sums of all amounts but left.
pub const SHEET: usize = 10;
/// Numbers that a raw reader or writer of text hands back: bytes taken or written, malformed line.
pub const GOT: usize = 2;
/// The most cells that a card can have.
pub const CELLS: usize = 256;
/// The longest journal that the book is kept of, in bytes.
pub const LONGEST: usize = 65_536;

/// The place of the share on a card.
pub const SHARE_AT: usize = 32;
/// The share of a card that has none of its own.
pub const USUAL_SHARE: u32 = 20;

/// The longest card text in bytes: a buffer of so many is never too short.
pub const CARD_TEXT: usize = 24_099;
/// The longest line of a reading.
pub const READING_TEXT: usize = 161;
/// The longest line of a void.
pub const VOID_TEXT: usize = 54;
/// The longest line of an answer.
pub const ANSWER_TEXT: usize = 292;
/// The longest line of a sheet.
pub const SHEET_TEXT: usize = 270;

/// The stack that each raw call needs in bytes, as include/waterbook.h says it; a caller's own frames come on top.
pub const STACK_STEP: usize = 832;
pub const STACK_VOID: usize = 832;
pub const STACK_CLEAR: usize = 208;
pub const STACK_COLLECT: usize = 240;
pub const STACK_GROW: usize = 320;
pub const STACK_SHRINK: usize = 256;
pub const STACK_ADD: usize = 184;
pub const STACK_READ_CARD: usize = 800;
pub const STACK_WRITE_CARD: usize = 1_216;
pub const STACK_READ_READING: usize = 368;
pub const STACK_WRITE_READING: usize = 544;
pub const STACK_READ_VOID: usize = 192;
pub const STACK_WRITE_VOID: usize = 464;
pub const STACK_WRITE_ANSWER: usize = 960;
pub const STACK_WRITE_SHEET: usize = 912;
pub const STACK_BOOK: usize = 49_152;

/// The number of a raw call that was accepted.
pub const ACCEPTED: u32 = 0;
/// The number of a raw call where a card, reading, notice, amounts, sums, sheet or got slice has another count of
/// numbers.
pub const NOT_THE_COUNT: u32 = 255;

/// A card's numbers; [`card`] makes them from its parts.
pub type Card = [u32; CARD];
/// A reading's numbers.
pub type Reading = [u32; READING];
/// The numbers of a void's notice.
pub type Notice = [u32; NOTICE];
/// The amounts of an accepted reading or void, in µm.
pub type Amounts = [i64; AMOUNTS];
/// The sums that were kept of a cell since it was last collected, in µm: runoff, drainage.
pub type Sums = [u64; SUMS];
/// A sheet's numbers; zeros are an empty sheet.
pub type Sheet = [i64; SHEET];
/// What a step answers: amounts, or why the reading or void was refused.
pub type Answer = Result<Amounts, Refusal>;

/// Why a call was refused, by the library's numbers; later versions may know more.
#[derive(Clone, Copy, Debug, PartialEq, Eq, Hash)]
#[non_exhaustive]
pub enum Refusal {
    /// The card is out of range, its share too, its depths do not rise, or an unused place is not 0.
    BadCard = 1,
    /// The soil slice has not 5 numbers per cell (for reading a card: has fewer), the row slice not 36, or a move's old
    /// rows not 32.
    BadLengths = 2,
    /// The cell number is not below cells.
    BadCell = 3,
    /// A soil number of that cell is out of range.
    BadSoil = 4,
    /// That cell's row is out of range; for a move, any row of the site.
    BadRow = 5,
    /// Old: the life is lower, or the same with a count lower than next.
    Old = 6,
    /// Gap: the life is the same with a count higher than next, or higher with a count that is not 0.
    Gap = 7,
    /// Another field of the reading is out of range, life and count included, or etmin is above pet; a void's life or
    /// count is out of range.
    BadReading = 8,
    /// The head is no number, or above 10,000 m in size and is neither mark.
    UnusableHead = 9,
    /// The head is marked inactive.
    InactiveHead = 10,
    /// The answer cannot be added to the sheet.
    NotAddable = 11,
    /// The text is malformed, or there is nothing that can be written.
    Malformed = 12,
    /// The cell's runoff or drainage would pass 10^18 µm since it was last collected: collect it, and step again.
    SumFull = 15,
    /// A sum of the site is not 0: before a move back, every cell is to be collected.
    NotCollected = 16,
    /// The reading's rain is above 600,000 µm, and no field is out of range: the gauge's bucket is jammed.
    JammedBucket = 17,
}

impl Refusal {
    /// All refusals, in the order of their numbers.
    pub const ALL: &'static [Refusal] = &[
        Refusal::BadCard,
        Refusal::BadLengths,
        Refusal::BadCell,
        Refusal::BadSoil,
        Refusal::BadRow,
        Refusal::Old,
        Refusal::Gap,
        Refusal::BadReading,
        Refusal::UnusableHead,
        Refusal::InactiveHead,
        Refusal::NotAddable,
        Refusal::Malformed,
        Refusal::SumFull,
        Refusal::NotCollected,
        Refusal::JammedBucket,
    ];

    /// The library's number for it.
    pub const fn number(self) -> u32 {
        self as u32
    }

    /// The refusal of a number, where there is one.
    pub fn of(number: u32) -> Option<Refusal> {
        Refusal::ALL.iter().copied().find(|refusal| refusal.number() == number)
    }
}

impl fmt::Display for Refusal {
    fn fmt(&self, out: &mut fmt::Formatter<'_>) -> fmt::Result {
        out.write_str(match self {
            Refusal::BadCard => "the card is out of range",
            Refusal::BadLengths => "the slices are not as long as the card asks",
            Refusal::BadCell => "the site has no such cell",
            Refusal::BadSoil => "a soil number of the cell is out of range",
            Refusal::BadRow => "the cell's stored row is out of range",
            Refusal::Old => "the reading or void is old: its count was used up before",
            Refusal::Gap => "a reading or void before this one is missing",
            Refusal::BadReading => "a field of the reading or void is out of range",
            Refusal::UnusableHead => "the head cannot be used",
            Refusal::InactiveHead => "the head is marked inactive",
            Refusal::NotAddable => "the answer cannot be added to the sheet",
            Refusal::Malformed => "the text is malformed, or cannot be written",
            Refusal::SumFull => "a sum of the cell would pass its limit: collect it first",
            Refusal::NotCollected => "a sum of the site is not collected",
            Refusal::JammedBucket => "the rain is above 600 mm: the gauge's bucket is jammed",
        })
    }
}

impl core::error::Error for Refusal {}

/// A card text that was not read: why, and at which of its lines, from 1; 0 where the soil slice is too short.
#[derive(Clone, Copy, Debug, PartialEq, Eq, Hash)]
pub struct NotRead {
    pub why: Refusal,
    pub line: usize,
}

impl fmt::Display for NotRead {
    fn fmt(&self, out: &mut fmt::Formatter<'_>) -> fmt::Result {
        match self.line {
            0 => self.why.fmt(out),
            line => write!(out, "line {line} of the card: {}", self.why),
        }
    }
}

impl core::error::Error for NotRead {}

impl From<NotRead> for Refusal {
    fn from(not_read: NotRead) -> Refusal {
        not_read.why
    }
}

/// A raw call's number as a result.
fn accepted(number: u32) -> Result<(), Refusal> {
    match Refusal::of(number) {
        Some(refusal) => Err(refusal),
        None if number == ACCEPTED => Ok(()),
        // The library is proved to give no other number to records of the right width.
        None => unreachable!("number {number}"),
    }
}

/// The length that a raw writer hands back.
fn length(number: u32, got: [usize; GOT]) -> Result<usize, Refusal> {
    accepted(number).map(|()| got[0])
}

/// A card from its parts: cells, the delay depths from the shallowest, and the share, [`USUAL_SHARE`] where the site has
/// none of its own. More than 30 depths are refused; all other ranges are left to the step.
pub fn card(cells: u32, depths: &[u32], share: u32) -> Result<Card, Refusal> {
    let mut card = [0; CARD];
    let room = card[2..SHARE_AT].get_mut(..depths.len()).ok_or(Refusal::BadCard)?;
    room.copy_from_slice(depths);
    card[0] = cells;
    card[1] = depths.len() as u32;
    card[SHARE_AT] = share;
    Ok(card)
}

/// One reading of the site: refused, the rows stay as they came, and the first refusal that applies is told.
pub fn step(card: &Card, soil: &[i64], rows: &mut [u32], reading: &Reading) -> Answer {
    let mut amounts = [0; AMOUNTS];
    accepted(raw::step(card, soil, rows, reading, &mut amounts)).map(|()| amounts)
}

/// One void of the site: it uses up a count for which no reading will come, and the waiting water moves on by a step.
pub fn void(card: &Card, soil: &[i64], rows: &mut [u32], notice: &Notice) -> Answer {
    let mut amounts = [0; AMOUNTS];
    accepted(raw::void(card, soil, rows, notice, &mut amounts)).map(|()| amounts)
}

/// Set all rows of the site to 0, once, before its first reading or void.
pub fn clear(card: &Card, rows: &mut [u32]) -> Result<(), Refusal> {
    accepted(raw::clear(card, rows))
}

/// Collect a cell: what ran off and what drained since the last time, both set to 0 in its row. Refused, the rows stay.
pub fn collect(card: &Card, rows: &mut [u32], cell: u32) -> Result<Sums, Refusal> {
    let mut sums = [0; SUMS];
    accepted(raw::collect(card, rows, cell, &mut sums)).map(|()| sums)
}

/// Move a site over from the rows of version 3, [`OLD_ROW`] numbers a cell, with all sums at 0. Refused, `rows` stays.
pub fn grow(card: &Card, old: &[u32], rows: &mut [u32]) -> Result<(), Refusal> {
    accepted(raw::grow(card, old, rows))
}

/// Move a site back to the rows of version 3, once every cell is collected. Refused, `old` stays.
pub fn shrink(card: &Card, rows: &[u32], old: &mut [u32]) -> Result<(), Refusal> {
    accepted(raw::shrink(card, rows, old))
}

/// Add an answer to a sheet: a refused one is not addable, and the sheet stays as it came.
pub fn add(sheet: &mut Sheet, answer: &Answer) -> Result<(), Refusal> {
    let (number, amounts) = numbers(answer);
    accepted(raw::add(sheet, number, &amounts))
}

/// An answer as the library has it: its number, and zeros where it was refused.
fn numbers(answer: &Answer) -> (u32, Amounts) {
    match answer {
        Ok(amounts) => (ACCEPTED, *amounts),
        Err(refusal) => (refusal.number(), [0; AMOUNTS]),
    }
}

/// Read a card text: the card and the bytes taken, with the first 5 numbers per cell of `soil` filled.
pub fn read_card(text: &[u8], soil: &mut [i64]) -> Result<(Card, usize), NotRead> {
    let (mut card, mut got) = ([0; CARD], [0; GOT]);
    match accepted(raw::read_card(text, &mut card, soil, &mut got)) {
        Ok(()) => Ok((card, got[0])),
        Err(why) => Err(NotRead { why, line: got[1] }),
    }
}

/// Write a card text at the buffer's start: its length.
pub fn write_card(card: &Card, soil: &[i64], buf: &mut [u8]) -> Result<usize, Refusal> {
    let mut got = [0; GOT];
    length(raw::write_card(card, soil, buf, &mut got), got)
}

/// Read the line of one reading: the reading and the bytes taken.
pub fn read_reading(text: &[u8]) -> Result<(Reading, usize), Refusal> {
    let (mut reading, mut got) = ([0; READING], [0; GOT]);
    accepted(raw::read_reading(text, &mut reading, &mut got)).map(|()| (reading, got[0]))
}

/// Write the line of a reading at the buffer's start: its length.
pub fn write_reading(reading: &Reading, buf: &mut [u8]) -> Result<usize, Refusal> {
    let mut got = [0; GOT];
    length(raw::write_reading(reading, buf, &mut got), got)
}

/// Read the line of one void: its notice and the bytes taken.
pub fn read_void(text: &[u8]) -> Result<(Notice, usize), Refusal> {
    let (mut notice, mut got) = ([0; NOTICE], [0; GOT]);
    accepted(raw::read_void(text, &mut notice, &mut got)).map(|()| (notice, got[0]))
}

/// Write the line of a void at the buffer's start: its length.
pub fn write_void(notice: &Notice, buf: &mut [u8]) -> Result<usize, Refusal> {
    let mut got = [0; GOT];
    length(raw::write_void(notice, buf, &mut got), got)
}

/// Write the line of a reading's or void's answer at the buffer's start: its length.
pub fn write_answer(cell: u32, answer: &Answer, buf: &mut [u8]) -> Result<usize, Refusal> {
    let ((number, amounts), mut got) = (numbers(answer), [0; GOT]);
    length(raw::write_answer(cell, number, &amounts, buf, &mut got), got)
}

/// Write the line of a sheet at the buffer's start: its length.
pub fn write_sheet(sheet: &Sheet, buf: &mut [u8]) -> Result<usize, Refusal> {
    let mut got = [0; GOT];
    length(raw::write_sheet(sheet, buf, &mut got), got)
}

/// The room in bytes that the book of a journal of so many bytes needs.
pub const fn book_room(journal: usize) -> usize {
    5 * journal + 300
}

/// The whole book of a journal at the buffer's start: its length, or none where the buffer has not the room.
pub fn book(journal: &[u8], buf: &mut [u8]) -> Option<usize> {
    // A book is never empty.
    Some(raw::book(journal, buf)).filter(|length| *length > 0)
}

/// The calls as the library has them: slices of any width, and the number that comes.
/// A Rust slice is never null, and what is lent to be changed is lent to nobody else: the library asks no more.
pub mod raw {
    use super::library;

    /// One reading of the site: its number, and the ten amounts in `amounts`.
    #[rustfmt::skip]
    pub fn step(card: &[u32], soil: &[i64], rows: &mut [u32], reading: &[u32], amounts: &mut [i64]) -> u32 {
        unsafe {
            library::waterbook_step(card.as_ptr(), card.len(), soil.as_ptr(), soil.len(), rows.as_mut_ptr(), rows.len(), reading.as_ptr(), reading.len(), amounts.as_mut_ptr(), amounts.len())
        }
    }

    /// One void of the site: its number, and the ten amounts in `amounts`.
    #[rustfmt::skip]
    pub fn void(card: &[u32], soil: &[i64], rows: &mut [u32], notice: &[u32], amounts: &mut [i64]) -> u32 {
        unsafe {
            library::waterbook_void(card.as_ptr(), card.len(), soil.as_ptr(), soil.len(), rows.as_mut_ptr(), rows.len(), notice.as_ptr(), notice.len(), amounts.as_mut_ptr(), amounts.len())
        }
    }

    /// Set all rows of the site to 0: 0, or 1 or 2 where refused.
    pub fn clear(card: &[u32], rows: &mut [u32]) -> u32 {
        unsafe {
            library::waterbook_clear(card.as_ptr(), card.len(), rows.as_mut_ptr(), rows.len())
        }
    }

    /// Collect a cell: its number, and runoff and drainage in `sums`, zeros where refused.
    #[rustfmt::skip]
    pub fn collect(card: &[u32], rows: &mut [u32], cell: u32, sums: &mut [u64]) -> u32 {
        unsafe {
            library::waterbook_collect(card.as_ptr(), card.len(), rows.as_mut_ptr(), rows.len(), cell, sums.as_mut_ptr(), sums.len())
        }
    }

    /// Move a site over from rows of 32 numbers a cell: 0, or 1, 2 or 5 and `rows` as it came.
    #[rustfmt::skip]
    pub fn grow(card: &[u32], old: &[u32], rows: &mut [u32]) -> u32 {
        unsafe {
            library::waterbook_grow(card.as_ptr(), card.len(), old.as_ptr(), old.len(), rows.as_mut_ptr(), rows.len())
        }
    }

    /// Move a site back to rows of 32 numbers a cell: 0, or 1, 2, 5 or 16 and `old` as it came.
    #[rustfmt::skip]
    pub fn shrink(card: &[u32], rows: &[u32], old: &mut [u32]) -> u32 {
        unsafe {
            library::waterbook_shrink(card.as_ptr(), card.len(), rows.as_ptr(), rows.len(), old.as_mut_ptr(), old.len())
        }
    }

    /// Add an answer, its number and amounts, to a sheet: 0, or 11 and the sheet as it came.
    #[rustfmt::skip]
    pub fn add(sheet: &mut [i64], number: u32, amounts: &[i64]) -> u32 {
        unsafe {
            library::waterbook_add(sheet.as_mut_ptr(), sheet.len(), number, amounts.as_ptr(), amounts.len())
        }
    }

    /// Read a card text: its number; `got` holds bytes taken and malformed line.
    #[rustfmt::skip]
    pub fn read_card(text: &[u8], card: &mut [u32], soil: &mut [i64], got: &mut [usize]) -> u32 {
        unsafe {
            library::waterbook_read_card(text.as_ptr(), text.len(), card.as_mut_ptr(), card.len(), soil.as_mut_ptr(), soil.len(), got.as_mut_ptr(), got.len())
        }
    }

    /// Write a card text: its number; `got` holds the length written and 0.
    #[rustfmt::skip]
    pub fn write_card(card: &[u32], soil: &[i64], buf: &mut [u8], got: &mut [usize]) -> u32 {
        unsafe {
            library::waterbook_write_card(card.as_ptr(), card.len(), soil.as_ptr(), soil.len(), buf.as_mut_ptr(), buf.len(), got.as_mut_ptr(), got.len())
        }
    }

    /// Read the line of one reading: its number; `got` holds bytes taken and malformed line.
    #[rustfmt::skip]
    pub fn read_reading(text: &[u8], reading: &mut [u32], got: &mut [usize]) -> u32 {
        unsafe {
            library::waterbook_read_reading(text.as_ptr(), text.len(), reading.as_mut_ptr(), reading.len(), got.as_mut_ptr(), got.len())
        }
    }

    /// Write the line of a reading: its number; `got` holds the length written and 0.
    #[rustfmt::skip]
    pub fn write_reading(reading: &[u32], buf: &mut [u8], got: &mut [usize]) -> u32 {
        unsafe {
            library::waterbook_write_reading(reading.as_ptr(), reading.len(), buf.as_mut_ptr(), buf.len(), got.as_mut_ptr(), got.len())
        }
    }

    /// Read the line of one void: its number; `got` holds bytes taken and malformed line.
    #[rustfmt::skip]
    pub fn read_void(text: &[u8], notice: &mut [u32], got: &mut [usize]) -> u32 {
        unsafe {
            library::waterbook_read_void(text.as_ptr(), text.len(), notice.as_mut_ptr(), notice.len(), got.as_mut_ptr(), got.len())
        }
    }

    /// Write the line of a void: its number; `got` holds the length written and 0.
    #[rustfmt::skip]
    pub fn write_void(notice: &[u32], buf: &mut [u8], got: &mut [usize]) -> u32 {
        unsafe {
            library::waterbook_write_void(notice.as_ptr(), notice.len(), buf.as_mut_ptr(), buf.len(), got.as_mut_ptr(), got.len())
        }
    }

    /// Write the line of an answer: its number; `got` holds the length written and 0.
    #[rustfmt::skip]
    pub fn write_answer(cell: u32, number: u32, amounts: &[i64], buf: &mut [u8], got: &mut [usize]) -> u32 {
        unsafe {
            library::waterbook_write_answer(cell, number, amounts.as_ptr(), amounts.len(), buf.as_mut_ptr(), buf.len(), got.as_mut_ptr(), got.len())
        }
    }

    /// Write the line of a sheet: its number; `got` holds the length written and 0.
    #[rustfmt::skip]
    pub fn write_sheet(sheet: &[i64], buf: &mut [u8], got: &mut [usize]) -> u32 {
        unsafe {
            library::waterbook_write_sheet(sheet.as_ptr(), sheet.len(), buf.as_mut_ptr(), buf.len(), got.as_mut_ptr(), got.len())
        }
    }

    /// The whole book of a journal at the buffer's start: its length, or 0 where the buffer has not the room.
    pub fn book(journal: &[u8], buf: &mut [u8]) -> usize {
        unsafe {
            library::waterbook_book(journal.as_ptr(), journal.len(), buf.as_mut_ptr(), buf.len())
        }
    }
}

mod library {
    #[link(name = "gateway", kind = "static")]
    #[rustfmt::skip]
    unsafe extern "C" {
        pub fn waterbook_step(card: *const u32, card_len: usize, soil: *const i64, soil_len: usize, rows: *mut u32, rows_len: usize, reading: *const u32, reading_len: usize, amounts: *mut i64, amounts_len: usize) -> u32;
        pub fn waterbook_void(card: *const u32, card_len: usize, soil: *const i64, soil_len: usize, rows: *mut u32, rows_len: usize, notice: *const u32, notice_len: usize, amounts: *mut i64, amounts_len: usize) -> u32;
        pub fn waterbook_clear(card: *const u32, card_len: usize, rows: *mut u32, rows_len: usize) -> u32;
        pub fn waterbook_collect(card: *const u32, card_len: usize, rows: *mut u32, rows_len: usize, cell: u32, sums: *mut u64, sums_len: usize) -> u32;
        pub fn waterbook_grow(card: *const u32, card_len: usize, old: *const u32, old_len: usize, rows: *mut u32, rows_len: usize) -> u32;
        pub fn waterbook_shrink(card: *const u32, card_len: usize, rows: *const u32, rows_len: usize, old: *mut u32, old_len: usize) -> u32;
        pub fn waterbook_add(sheet: *mut i64, sheet_len: usize, number: u32, amounts: *const i64, amounts_len: usize) -> u32;
        pub fn waterbook_read_card(text: *const u8, text_len: usize, card: *mut u32, card_len: usize, soil: *mut i64, soil_len: usize, got: *mut usize, got_len: usize) -> u32;
        pub fn waterbook_write_card(card: *const u32, card_len: usize, soil: *const i64, soil_len: usize, buf: *mut u8, buf_len: usize, got: *mut usize, got_len: usize) -> u32;
        pub fn waterbook_read_reading(text: *const u8, text_len: usize, reading: *mut u32, reading_len: usize, got: *mut usize, got_len: usize) -> u32;
        pub fn waterbook_write_reading(reading: *const u32, reading_len: usize, buf: *mut u8, buf_len: usize, got: *mut usize, got_len: usize) -> u32;
        pub fn waterbook_read_void(text: *const u8, text_len: usize, notice: *mut u32, notice_len: usize, got: *mut usize, got_len: usize) -> u32;
        pub fn waterbook_write_void(notice: *const u32, notice_len: usize, buf: *mut u8, buf_len: usize, got: *mut usize, got_len: usize) -> u32;
        pub fn waterbook_write_answer(cell: u32, number: u32, amounts: *const i64, amounts_len: usize, buf: *mut u8, buf_len: usize, got: *mut usize, got_len: usize) -> u32;
        pub fn waterbook_write_sheet(sheet: *const i64, sheet_len: usize, buf: *mut u8, buf_len: usize, got: *mut usize, got_len: usize) -> u32;
        pub fn waterbook_book(journal: *const u8, journal_len: usize, buf: *mut u8, buf_len: usize) -> usize;
    }
}
