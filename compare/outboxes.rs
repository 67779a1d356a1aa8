//! Outboxes: calls by the library of the node and by the second program, held to each other, alone and in long runs.

use crate::forms::wrong_shape;
use crate::lent::{Lent, equal, same};
use crate::outbox::{BOX, EMPTY, NOT_THE_SHAPE, raw};
use crate::sides;
use crate::tally::Tally;
use second::made::dice::Dice;
use second::made::outboxes::{Call, any, any_call, lent_box, lent_entry, next_call};
use second::numbers::{Entry, Turn};
use second::outbox::{MOST_HELD, Outbox, entry_numbers, entry_of};

/// What a call on an outbox is given, in numbers; the slices may have any width.
#[derive(Clone, Debug)]
pub struct Given {
    pub call: Call,
    pub outbox: Vec<u32>,
    /// The entry that is added, or the one that an offer fills.
    pub entry: Vec<u32>,
}

impl Given {
    /// The call's name in the tally.
    fn name(&self) -> &'static str {
        match self.call {
            Call::Fresh { .. } => "outbox_fresh",
            Call::Offer => "outbox_offer",
            Call::Add => "outbox_add",
            Call::Replace => "outbox_replace",
            Call::Acknowledge { .. } => "outbox_acknowledge",
            Call::Swap { .. } => "outbox_swap",
        }
    }

    /// The second's answer: its number; outbox and entry as they are after it.
    fn second(&mut self) -> u32 {
        if wrong_shape(self).is_some() {
            return NOT_THE_SHAPE;
        }
        if self.call == Call::Offer {
            self.entry.fill(0);
        }
        self.second_outbox().err().unwrap_or(0)
    }

    /// The second's outbox through the call; what it holds is written back where it was refused too.
    fn second_outbox(&mut self) -> Result<(), u32> {
        let mut outbox = match self.call {
            Call::Fresh { cell } => Outbox::fresh(cell)?,
            _ => Outbox::read(&self.outbox)?,
        };
        let done = self.second_call(&mut outbox);
        outbox.write(&mut self.outbox);
        done
    }

    /// The second's call; an empty outbox says so by its number.
    fn second_call(&mut self, outbox: &mut Outbox) -> Result<(), u32> {
        match self.call {
            Call::Fresh { .. } => Ok(()),
            Call::Offer => {
                let oldest = outbox.offer()?.ok_or(EMPTY)?;
                self.entry.copy_from_slice(&entry_numbers(&oldest));
                Ok(())
            }
            Call::Add => outbox.add(&entry_of(&self.entry).ok_or(NOT_THE_SHAPE)?),
            Call::Replace => outbox.replace()?.then_some(()).ok_or(EMPTY),
            Call::Acknowledge { life, count } => outbox.acknowledge(life, count),
            Call::Swap { life } => outbox.swap(life),
        }
    }
}

/// The slices lent to the library for a run of calls.
struct Slices {
    outbox: Lent<u32>,
    entry: Lent<u32>,
}

impl Slices {
    /// Slices that hold what is given.
    fn lend(given: &Given) -> Slices {
        let entry = Lent::new(&given.entry, 0xc3c3_c3c3);
        Slices { outbox: Lent::new(&given.outbox, 0x5a5a_5a5a), entry }
    }

    /// The library's answer.
    fn library(&mut self, call: Call) -> u32 {
        match call {
            Call::Fresh { cell } => raw::fresh(cell, self.outbox.slice()),
            Call::Offer => raw::offer(self.outbox.held(), self.entry.slice()),
            Call::Add => raw::add(self.outbox.slice(), self.entry.held()),
            Call::Replace => raw::replace(self.outbox.slice()),
            Call::Acknowledge { life, count } => raw::acknowledge(self.outbox.slice(), life, count),
            Call::Swap { life } => raw::swap(self.outbox.slice(), life),
        }
    }
}

/// One call by both, held to each other; its number.
fn both(given: &mut Given, slices: &mut Slices, tally: &mut Tally) -> Result<u32, String> {
    let asked = given.clone();
    let number = given.second();
    let answered = slices.library(given.call);
    tally.calls += 1;
    tally.number(given.name(), number);
    sides::meet(&asked, number, tally);
    equal("number", answered, number)
        .and_then(|()| same("outbox", &slices.outbox, &given.outbox))
        .and_then(|()| same("entry", &slices.entry, &given.entry))
        .map_err(|what| format!("{}\n{what}\n{asked:?}", given.name()))?;
    Ok(number)
}

/// Single calls on outboxes in form and not, with slices of any width.
pub fn wild_calls(dice: &mut Dice, tally: &mut Tally, times: u64) -> Result<(), String> {
    for _ in 0..times {
        let (made, outbox) = lent_box(dice);
        let call = any_call(dice, &made);
        let mut given = Given { call, outbox, entry: lent_entry(dice, &made, call) };
        let mut slices = Slices::lend(&given);
        both(&mut given, &mut slices, tally)?;
    }
    Ok(())
}

/// What long runs of calls on one outbox must meet.
pub const RUNS: &[&str] = &[
    "30 held",
    "room used again after 30 were held",
    "more than 100 entries of one life",
    "a replaced reading offered as a void",
    "a replaced reading removed",
    "the last count of a life",
    "a new life after 30 were held",
    "a new life after the last count",
];

/// What a run remembers of the present life of its outbox.
#[derive(Default)]
struct Past {
    /// Were 30 entries held?
    full: bool,
    /// The turn of the reading that was replaced last.
    replaced: Option<Turn>,
}

impl Past {
    /// Note what a call that was done came to in its run.
    fn meet(&mut self, call: Call, before: &Outbox, after: &Outbox, tally: &mut Tally) {
        let replaced = self.replaced.is_some() && oldest_turn(before) == self.replaced;
        let (add, swap) = (call == Call::Add, matches!(call, Call::Swap { .. }));
        let removed = matches!(call, Call::Acknowledge { .. }) && after.held() < before.held();
        let met = [
            add && after.unheard.len() == MOST_HELD,
            add && self.full,
            add && after.next > 100,
            call == Call::Offer && replaced,
            removed && replaced,
            add && after.next == 1_000_000,
            swap && self.full,
            swap && before.next == 1_000_000,
        ];
        for (name, _) in RUNS.iter().zip(met).filter(|(_, met)| *met) {
            tally.meet("runs of outboxes", name);
        }
        self.remember(call, before, after);
    }

    /// Remember a call that was done.
    fn remember(&mut self, call: Call, before: &Outbox, after: &Outbox) {
        self.full |= after.unheard.len() == MOST_HELD;
        match (call, before.unheard.front()) {
            (Call::Fresh { .. } | Call::Swap { .. }, _) => *self = Past::default(),
            (Call::Replace, Some(Entry::Reading(reading))) => self.replaced = Some(reading.turn()),
            _ => {}
        }
    }
}

/// The turn of the oldest entry held.
fn oldest_turn(outbox: &Outbox) -> Option<Turn> {
    outbox.unheard.front().map(Entry::turn)
}

/// The outbox that a run has come to.
fn present(given: &Given) -> Result<Outbox, String> {
    Outbox::read(&given.outbox).map_err(|number| format!("number {number} in a run\n{given:?}"))
}

/// A fresh outbox on both sides, over any numbers; at times its next count is then put near the last.
fn begin(dice: &mut Dice, tally: &mut Tally) -> Result<(Given, Slices), String> {
    let call = Call::Fresh { cell: dice.below(256) as u32 };
    let outbox = (0..BOX).map(|_| any(dice)).collect();
    let mut given = Given { call, outbox, entry: Vec::new() };
    let mut slices = Slices::lend(&given);
    both(&mut given, &mut slices, tally)?;
    if dice.once_in(5) {
        given.outbox[2] = dice.within(999_800, 1_000_000) as u32;
        slices = Slices::lend(&given);
    }
    Ok((given, slices))
}

/// Many calls on one outbox.
pub fn run(dice: &mut Dice, tally: &mut Tally, calls: u64) -> Result<(), String> {
    let (mut given, mut slices) = begin(dice, tally)?;
    let (mut before, mut past) = (present(&given)?, Past::default());
    let rarity = dice.pick(&[2, 4, 12, 60]);
    for place in 0..calls {
        given.call = next_call(dice, &before, rarity);
        given.entry = lent_entry(dice, &before, given.call);
        slices.entry = Lent::new(&given.entry, 0xc3c3_c3c3);
        let at = |what| format!("call {place} of a run\n{what}");
        let number = both(&mut given, &mut slices, tally).map_err(at)?;
        let after = present(&given)?;
        if number == 0 {
            past.meet(given.call, &before, &after, tally);
        }
        before = after;
    }
    Ok(())
}
