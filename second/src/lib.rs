//! A second water-budget program, written from the rules page alone.
//! The modules follow the page: numbers, head, queue, rules, step, sheet, text, journal.
//! The outbox is the node's end of the link, sums are what rows keep until it is collected, and the ring is a second
//! engine beside the queue's plain one; each is written from the request for it.

pub mod head;
pub mod journal;
pub mod made;
pub mod numbers;
pub mod outbox;
pub mod queue;
pub mod ring;
pub mod rules;
pub mod sheet;
pub mod step;
pub mod sums;
pub mod text;

#[cfg(test)]
mod tests;
