//! Made outboxes and calls on them: in form mostly, damaged in a number now and then, at times of another width.

use super::dice::Dice;
use crate::numbers::{Entry, Reading, Turn};
use crate::outbox::{entry_numbers, Outbox, BOX, ENTRY, MOST_HELD};

/// A call on an outbox; the numbers of an entry are lent beside it.
#[derive(Clone, Copy, Debug, PartialEq, Eq)]
pub enum Call {
    Fresh { cell: u32 },
    Offer,
    Add,
    Replace,
    Acknowledge { life: u32, count: u32 },
    Swap { life: u32 },
}

/// Any number, those at an edge as often as others.
pub fn any(dice: &mut Dice) -> u32 {
    let some = dice.roll() as u32 >> dice.below(32);
    let edge = dice.pick(&[0, 1, 30, 31, 255, 256, 65_535, 65_536, 999_999, 1_000_000, u32::MAX]);
    dice.pick(&[some, edge])
}

/// An outbox in form, now and then with the first or last cell, life or count.
pub fn made(dice: &mut Dice) -> Outbox {
    let held = some_held(dice);
    let next = some_turn(dice, held);
    filled(dice, next, held)
}

/// An outbox whose entries are in turn but whose own cell, life or next count is out of range.
pub fn beyond(dice: &mut Dice) -> Outbox {
    let held = some_held(dice);
    let mut next = some_turn(dice, held);
    match dice.below(4) {
        0 => next.cell = dice.pick(&[256, 257, u32::MAX]),
        1 => next.life = dice.pick(&[65_536, 65_537, u32::MAX]),
        2 => next.count = dice.pick(&[1_000_001, 1_000_030, u32::MAX]),
        // Fewer counts than entries: the first ones lie below 0.
        _ => next.count = dice.below(u64::from(held.max(1))) as u32,
    }
    filled(dice, next, held)
}

/// An outbox with so many entries before its next turn; counts below 0 wrap around.
fn filled(dice: &mut Dice, next: Turn, held: u32) -> Outbox {
    let Turn { cell, life, count: next } = next;
    let rarity = dice.pick(&[1, 2, 4, 12, 1000]);
    let mut outbox = Outbox { cell, life, next, unheard: Default::default() };
    for place in (1..=held).rev() {
        let turn = outbox.turn(next.wrapping_sub(place));
        outbox.unheard.push_back(made_entry(dice, turn, rarity));
    }
    outbox
}

/// How many entries are held: few, or as many as there is room for.
fn some_held(dice: &mut Dice) -> u32 {
    let some = dice.below(31) as u32;
    dice.pick(&[0, 0, 1, 2, 29, 30, 30, some, some, some])
}

/// A cell that a site may have.
fn some_cell(dice: &mut Dice) -> u32 {
    let some = dice.below(256) as u32;
    dice.pick(&[0, 255, some, some])
}

/// A next turn in range, with so many counts before it.
fn some_turn(dice: &mut Dice, held: u32) -> Turn {
    let some = dice.below(65_536) as u32;
    let life = dice.pick(&[0, 0, 1, 65_534, 65_535, some, some]);
    let some = dice.within(i64::from(held), 1_000_000) as u32;
    let count =
        dice.pick(&[held, held, held + 1, held + 1, 999_999, 999_999, 1_000_000, some, some]);
    Turn { cell: some_cell(dice), life, count }
}

/// An entry of a turn, a void once in so many; a reading has any figures, since an outbox asks nothing of them.
pub fn made_entry(dice: &mut Dice, turn: Turn, rarity: u64) -> Entry {
    if dice.once_in(rarity) {
        return Entry::Void(turn);
    }
    let Turn { cell, life, count } = turn;
    let [rain, irrig, septic, etmin, pet, amc, head] =
        if dice.once_in(8) { [0; 7] } else { [0; 7].map(|_| any(dice)) };
    Entry::Reading(Reading { cell, life, count, rain, irrig, septic, etmin, pet, amc, head })
}

/// Any call on an outbox.
pub fn any_call(dice: &mut Dice, outbox: &Outbox) -> Call {
    match dice.below(12) {
        0 => Call::Fresh { cell: fresh_cell(dice) },
        1 => Call::Offer,
        2 => Call::Replace,
        3..=5 => acknowledgement(dice, outbox),
        6 | 7 => Call::Swap { life: swapped_life(dice, outbox.life) },
        _ => Call::Add,
    }
}

/// The next call of a run: adding mostly, an acknowledgement once in so many calls, a new battery seldom.
pub fn next_call(dice: &mut Dice, outbox: &Outbox, rarity: u64) -> Call {
    if dice.once_in(rarity) {
        return acknowledgement(dice, outbox);
    }
    match dice.below(200) {
        0 => Call::Fresh { cell: fresh_cell(dice) },
        1..=4 => Call::Swap { life: swapped_life(dice, outbox.life) },
        5..=19 => Call::Replace,
        20..=49 => Call::Offer,
        _ => Call::Add,
    }
}

/// A cell for a fresh outbox.
fn fresh_cell(dice: &mut Dice) -> u32 {
    let (cell, any) = (some_cell(dice), any(dice));
    dice.pick(&[cell, cell, 255, 256, any])
}

/// A life for a new battery: the next one mostly, or one at an edge.
fn swapped_life(dice: &mut Dice, life: u32) -> u32 {
    let (next, any) = (life.wrapping_add(1), any(dice));
    let lower = dice.below(u64::from(life) + 1) as u32;
    dice.pick(&[next, next, next, next.wrapping_add(1), life, lower, 65_535, 65_536, any])
}

/// An acknowledgement: of this life mostly, at a count held or beside it.
fn acknowledgement(dice: &mut Dice, outbox: &Outbox) -> Call {
    let (next, any) = (outbox.next, any(dice));
    let oldest = next.wrapping_sub(outbox.held());
    let heard = oldest.wrapping_add(dice.below(u64::from(outbox.held()) + 1) as u32);
    let (below, past) = (oldest.wrapping_sub(1), next.wrapping_add(1));
    let edge = dice.pick(&[below, oldest, oldest.wrapping_add(1), next, past, any]);
    let count = dice.pick(&[heard, heard, edge]);
    let life = if dice.once_in(6) { another(dice, outbox.life) } else { outbox.life };
    Call::Acknowledge { life, count }
}

/// Another number: one beside it, or any.
fn another(dice: &mut Dice, number: u32) -> u32 {
    let any = any(dice);
    dice.pick(&[number.wrapping_add(1), number.wrapping_sub(1), any])
}

/// The numbers of an entry for a call: to be added in its turn mostly, or to be filled.
pub fn lent_entry(dice: &mut Dice, outbox: &Outbox, call: Call) -> Vec<u32> {
    let mut turn = outbox.turn(outbox.next);
    match dice.below(20) {
        0 => turn.cell = another(dice, turn.cell),
        1 => turn.life = another(dice, turn.life),
        2 | 3 => turn.count = another(dice, turn.count),
        _ => {}
    }
    let mut numbers = entry_numbers(&made_entry(dice, turn, 4)).to_vec();
    match dice.below(30) {
        0 => numbers[0] = dice.pick(&[2, 3, 256, u32::MAX]),
        1 => (numbers[0], numbers[4 + dice.place(7)]) = (1, 1 + any(dice) / 2),
        2 if dice.once_in(2) => numbers.resize(another_width(dice, ENTRY), 0),
        _ => {}
    }
    // What an offer finds in the numbers that it fills must not matter.
    if call == Call::Offer {
        numbers.fill_with(|| any(dice));
    }
    numbers
}

/// An outbox, and the numbers that are lent of it: in form mostly, at times damaged or of another width.
pub fn lent_box(dice: &mut Dice) -> (Outbox, Vec<u32>) {
    let outbox = if dice.once_in(10) { beyond(dice) } else { made(dice) };
    let mut numbers = vec![0; BOX];
    outbox.write(&mut numbers);
    match dice.below(20) {
        0..=7 => damage(dice, &mut numbers),
        8 => numbers.resize(another_width(dice, BOX), 0),
        _ => {}
    }
    (outbox, numbers)
}

/// Put one number of an outbox wrong, or two entries in each other's place; a reading's figure may be any.
pub fn damage(dice: &mut Dice, numbers: &mut [u32]) {
    let held = numbers[3] as usize;
    let own = |dice: &mut Dice, edges: &[u32], number| {
        let other = another(dice, number);
        dice.pick(&[edges, &[other, other]].concat())
    };
    match dice.below(12) {
        0 => numbers[0] = own(dice, &[255, 256], numbers[0]),
        1 => numbers[1] = own(dice, &[65_535, 65_536], numbers[1]),
        2 => numbers[2] = own(dice, &[1_000_000, 1_000_001], numbers[2]),
        3 => numbers[3] = own(dice, &[30, 31], numbers[3]),
        4..=8 if held > 0 => damage_entry(dice, &mut numbers[4..4 + ENTRY * held]),
        9 | 10 if held < MOST_HELD => damage_spare(dice, &mut numbers[4 + ENTRY * held..]),
        _ => numbers[dice.place(BOX)] = any(dice),
    }
}

/// Put a number of some entry wrong, or exchange it with another.
fn damage_entry(dice: &mut Dice, room: &mut [u32]) {
    let places = room.len() / ENTRY;
    let (place, other) = (ENTRY * dice.place(places), ENTRY * dice.place(places));
    match dice.below(6) {
        0 => room[place] = dice.pick(&[0, 1, 2, 3, u32::MAX]),
        1 => (0..ENTRY).for_each(|number| room.swap(place + number, other + number)),
        2 => room[place + 4 + dice.place(7)] = any(dice),
        3 => room[place + 1] = another(dice, room[place + 1]),
        4 => room[place + 2] = another(dice, room[place + 2]),
        _ => room[place + 3] = another(dice, room[place + 3]),
    }
}

/// Leave something in spare room: in its first or last number, or anywhere.
fn damage_spare(dice: &mut Dice, spare: &mut [u32]) {
    let anywhere = dice.place(spare.len());
    let place = dice.pick(&[0, spare.len() - 1, anywhere, anywhere]);
    spare[place] = 1 + any(dice) / 2;
}

/// Another width than the right one.
fn another_width(dice: &mut Dice, right: usize) -> usize {
    let some = dice.place(2 * right);
    let width = dice.pick(&[0, 1, right - 1, right + 1, right - ENTRY.min(right), some]);
    if width == right {
        right + ENTRY
    } else {
        width
    }
}
