//! The proved outbox of one plot's node ("cell"), for Rust.
//!
//! include/outbox.h says in words what each number means; the order of the numbers is the same here. An outbox and an
//! entry are arrays of their own width, a refused call an `Err` with its [`Refusal`]. [`raw`] has the same calls over
//! slices of any width, with the number as it comes. The library keeps nothing between calls: the outbox is the node's
//! own, to be kept where a fresh battery does not wipe it.
//!
//! rust/ is a package of this file: a firm's own package names it by path. Plain `rustc --edition 2024` takes this file
//! as a module and finds the library by `-L native=target/staticlib`, after `help/library.sh node`; hosts/dialogue.rs
//! is such a host. Edition 2021 works too; 2015, which rustc takes unasked, does not.
//!
//! ```
//! use outbox::{READING, Refusal, VOID};
//!
//! // The node of plot 3 on its first day: 50.8 mm of rain over a water table at 8.75 m.
//! let mut kept = outbox::fresh(3)?;
//! let mut entry = [READING, 0, 0, 0, 50_800, 0, 0, 2_000, 5_000, 2, 8.75f32.to_bits()];
//! // The next entry has the outbox's cell, life and next count.
//! entry[1..4].copy_from_slice(&kept[..3]);
//! outbox::add(&mut kept, &entry)?;
//! // The same again is refused: its count is used.
//! assert_eq!(outbox::add(&mut kept, &entry), Err(Refusal::NotNext));
//!
//! // It is offered until it is heard: the gateway has life 0 and expects count 1.
//! assert_eq!(outbox::offer(&kept)?, Some(entry));
//! outbox::acknowledge(&mut kept, 0, 1)?;
//! assert_eq!(outbox::offer(&kept)?, None);
//!
//! // A frozen gauge's reading, which the gateway refuses: a void takes its place.
//! entry = [READING, 3, 0, 1, u32::MAX, 0, 0, 2_000, 5_000, 2, 8.75f32.to_bits()];
//! outbox::add(&mut kept, &entry)?;
//! assert!(outbox::replace(&mut kept)?);
//! assert_eq!(outbox::offer(&kept)?, Some([VOID, 3, 0, 1, 0, 0, 0, 0, 0, 0, 0]));
//!
//! // A fresh battery: life 1 starts at count 0, and what was unheard is gone.
//! outbox::swap(&mut kept, 1)?;
//! assert_eq!(outbox::offer(&kept)?, None);
//! # Ok::<(), Refusal>(())
//! ```

use core::fmt;

/// The version of the library; include/outbox.h says what raises which part.
pub const VERSION_MAJOR: u32 = 1;
pub const VERSION_MINOR: u32 = 1;
pub const VERSION_PATCH: u32 = 2;
/// The version as one number.
pub const VERSION: u32 = 1_000_000 * VERSION_MAJOR + 1_000 * VERSION_MINOR + VERSION_PATCH;

/// Numbers of an outbox: cell, life, next count, entries held, then 30 places of 11, the oldest entry first.
pub const BOX: usize = 334;
/// Numbers of an entry: its kind, then cell, life, count, rain, irrig, septic, etmin, pet, amc, the head's 32 bits.
pub const ENTRY: usize = 11;
/// The most entries that an outbox holds.
pub const HELD: usize = 30;

/// The kind of an entry that is a reading.
pub const READING: u32 = 0;
/// The kind of an entry that is a void: cell, life and count, then seven zeros.
pub const VOID: u32 = 1;

/// The stack that each raw call needs in bytes, as include/outbox.h says it; a caller's own frames come on top.
pub const STACK_FRESH: usize = 1_664;
pub const STACK_OFFER: usize = 3_264;
pub const STACK_ADD: usize = 4_800;
pub const STACK_REPLACE: usize = 4_800;
pub const STACK_ACKNOWLEDGE: usize = 4_800;
pub const STACK_SWAP: usize = 4_800;

/// The number of a raw call that was done.
pub const DONE: u32 = 0;
/// The number of a raw offer or replacement where the outbox holds nothing.
pub const EMPTY: u32 = 254;
/// The number of a raw call where an outbox or an entry has another count of numbers, or what is added is no entry.
pub const NOT_THE_SHAPE: u32 = 255;

/// An outbox's numbers.
pub type Outbox = [u32; BOX];
/// An entry's numbers.
pub type Entry = [u32; ENTRY];

/// Why a call was refused, by the library's numbers; later versions may know more.
#[derive(Clone, Copy, Debug, PartialEq, Eq, Hash)]
#[non_exhaustive]
pub enum Refusal {
    /// The outbox holds 30 entries that are unheard.
    Full = 13,
    /// The entry's cell, life or count is not the outbox's next or is out of range; or a swap's life is not higher, or
    /// above 65,535; or a fresh outbox's cell is above 255.
    NotNext = 14,
    /// The outbox is out of its form.
    BadForm = 23,
}

impl Refusal {
    /// All refusals, in the order of their numbers.
    pub const ALL: &'static [Refusal] = &[Refusal::Full, Refusal::NotNext, Refusal::BadForm];

    /// The library's number for it.
    pub const fn number(self) -> u32 {
        self as u32
    }

    /// The refusal of a number, where there is one.
    pub fn of(number: u32) -> Option<Refusal> {
        Refusal::ALL.iter().copied().find(|refusal| refusal.number() == number)
    }
}

impl fmt::Display for Refusal {
    fn fmt(&self, out: &mut fmt::Formatter<'_>) -> fmt::Result {
        out.write_str(match self {
            Refusal::Full => "the outbox holds 30 entries",
            Refusal::NotNext => "the cell, life or count is not the next, or is out of range",
            Refusal::BadForm => "the outbox is out of its form",
        })
    }
}

impl core::error::Error for Refusal {}

/// A raw call's number as a result.
fn done(number: u32) -> Result<(), Refusal> {
    match Refusal::of(number) {
        Some(refusal) => Err(refusal),
        None if number == DONE => Ok(()),
        // The library gives no other number to an outbox and an entry that are of their shape.
        None => panic!("what was added is no entry: number {number}"),
    }
}

/// The same for a call that asks for an oldest entry: false where the outbox is empty.
fn found(number: u32) -> Result<bool, Refusal> {
    if number == EMPTY { Ok(false) } else { done(number).map(|()| true) }
}

/// An empty outbox of a cell, in life 0 with count 0 next.
pub fn fresh(cell: u32) -> Result<Outbox, Refusal> {
    let mut outbox = [0; BOX];
    done(raw::fresh(cell, &mut outbox)).map(|()| outbox)
}

/// The oldest entry, which is to be sent; none where the outbox is empty.
pub fn offer(outbox: &Outbox) -> Result<Option<Entry>, Refusal> {
    let mut entry = [0; ENTRY];
    found(raw::offer(outbox, &mut entry)).map(|found| found.then_some(entry))
}

/// Take a new entry behind those held.
///
/// # Panics
///
/// Where `entry` is neither a reading nor a void: its kind is above 1, or it is a void with figures.
pub fn add(outbox: &mut Outbox, entry: &Entry) -> Result<(), Refusal> {
    done(raw::add(outbox, entry))
}

/// Put a void with the oldest entry's life and count in its place; false where the outbox is empty.
pub fn replace(outbox: &mut Outbox) -> Result<bool, Refusal> {
    found(raw::replace(outbox))
}

/// Hear an acknowledgement, the gateway's life and next count: what it has accepted goes, all else stays.
pub fn acknowledge(outbox: &mut Outbox, life: u32, next: u32) -> Result<(), Refusal> {
    done(raw::acknowledge(outbox, life, next))
}

/// Put in a fresh battery: the outbox is emptied, and the higher life starts at count 0.
pub fn swap(outbox: &mut Outbox, life: u32) -> Result<(), Refusal> {
    done(raw::swap(outbox, life))
}

/// The calls as the library has them: slices of any width, and the number that comes.
/// A Rust slice is never null, and what is lent to be changed is lent to nobody else: the library asks no more.
pub mod raw {
    use super::library;

    /// An empty outbox of a cell: 0, or 14 and the outbox as it came.
    pub fn fresh(cell: u32, outbox: &mut [u32]) -> u32 {
        unsafe { library::outbox_fresh(cell, outbox.as_mut_ptr(), outbox.len()) }
    }

    /// The oldest entry in `entry`: its number, and eleven zeros where it is 23 or 254.
    #[rustfmt::skip]
    pub fn offer(outbox: &[u32], entry: &mut [u32]) -> u32 {
        unsafe { library::outbox_offer(outbox.as_ptr(), outbox.len(), entry.as_mut_ptr(), entry.len()) }
    }

    /// Take a new entry: 0, or 23, 14 or 13 and the outbox as it came.
    #[rustfmt::skip]
    pub fn add(outbox: &mut [u32], entry: &[u32]) -> u32 {
        unsafe { library::outbox_add(outbox.as_mut_ptr(), outbox.len(), entry.as_ptr(), entry.len()) }
    }

    /// Put a void in place of the oldest: 0, or 23 or 254 and the outbox as it came.
    pub fn replace(outbox: &mut [u32]) -> u32 {
        unsafe { library::outbox_replace(outbox.as_mut_ptr(), outbox.len()) }
    }

    /// Hear an acknowledgement: 0, whether or not it removes anything, or 23 and the outbox as it came.
    pub fn acknowledge(outbox: &mut [u32], life: u32, next: u32) -> u32 {
        unsafe { library::outbox_acknowledge(outbox.as_mut_ptr(), outbox.len(), life, next) }
    }

    /// Empty the outbox and start a higher life: 0, or 23 or 14 and the outbox as it came.
    pub fn swap(outbox: &mut [u32], life: u32) -> u32 {
        unsafe { library::outbox_swap(outbox.as_mut_ptr(), outbox.len(), life) }
    }
}

mod library {
    #[link(name = "node", kind = "static")]
    #[rustfmt::skip]
    unsafe extern "C" {
        pub fn outbox_fresh(cell: u32, outbox: *mut u32, outbox_len: usize) -> u32;
        pub fn outbox_offer(outbox: *const u32, outbox_len: usize, entry: *mut u32, entry_len: usize) -> u32;
        pub fn outbox_add(outbox: *mut u32, outbox_len: usize, entry: *const u32, entry_len: usize) -> u32;
        pub fn outbox_replace(outbox: *mut u32, outbox_len: usize) -> u32;
        pub fn outbox_acknowledge(outbox: *mut u32, outbox_len: usize, life: u32, next: u32) -> u32;
        pub fn outbox_swap(outbox: *mut u32, outbox_len: usize, life: u32) -> u32;
    }
}
