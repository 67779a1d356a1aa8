//! The ring engine: where slots stand, what steps and voids do to places and start, and that both engines answer alike.

use super::{card, delayed, example, some_row, starts, turned, PLOT};
use crate::made::dice::Dice;
use crate::made::entries::next_entry;
use crate::made::site::Site;
use crate::made::wet::{metres_down, wet_reading};
use crate::numbers::{slot_limit, Amounts, Entry, Reading, Void, RING_ROW, ROW};
use crate::ring::{self, read_from_start, START};
use crate::step;
use crate::sums;

/// A row of zeros but for its first slots.
fn slots(first: &[u32]) -> [u32; ROW] {
    let mut row = [0; ROW];
    row[2..2 + first.len()].copy_from_slice(first);
    row
}

#[test]
fn read_from_each_start() {
    let row: [u32; ROW] = std::array::from_fn(|place| place as u32);
    let mut ring: [u32; RING_ROW] = std::array::from_fn(|place| place as u32);
    let first = [[2, 3, 4, 5], [3, 4, 5, 2], [4, 5, 2, 3], [5, 2, 3, 4]];
    for (start, first) in first.into_iter().enumerate() {
        ring[START] = start as u32;
        let mut wanted = row;
        wanted[2..6].copy_from_slice(&first);
        assert_eq!(read_from_start(&ring, 4), wanted);
    }
}

#[test]
fn turned_and_read_again() {
    let dice = &mut Dice::new(8);
    for delays in 0..=30 {
        let row = some_row(dice, delays);
        for start in starts(delays) {
            assert_eq!(read_from_start(&turned(&row, start, delays), delays), row);
        }
    }
    assert_eq!(turned(&slots(&[1, 2, 3]), 2, 3)[2..6], [2, 3, 1, 0]);
}

/// One place empties, the start goes on to the next, and all other water stays where it is.
#[test]
fn a_void_empties_the_place_at_the_start() {
    let after = [(1, [0, 70, 80]), (2, [60, 0, 80]), (0, [60, 70, 0])];
    for (start, (next_start, places)) in after.into_iter().enumerate() {
        let mut row = [0; RING_ROW];
        row[2..5].copy_from_slice(&[60, 70, 80]);
        row[32..].copy_from_slice(&[4, 3, 2, 1, start as u32]);
        let (number, amounts) = ring::void(&delayed(1, 3), &PLOT, &mut row, &Void::default());
        let release = [60, 70, 80][start];
        let wanted = Amounts { release, recharge: release, left: 210 - release, ..amounts };
        assert_eq!((number, amounts), (0, wanted));
        assert_eq!((&row[..2], &row[2..5], &row[5..32]), (&[0, 1][..], &places[..], &[0; 27][..]));
        assert_eq!(row[32..], [4, 3, 2, 1, next_start]);
    }
}

/// The number, etmin drawn, places and start of a dry day over slots of 100, 700 and 5000.
fn dry_day(start: u32, head: u32) -> (u32, i64, i64, [u32; 3], u32) {
    let mut row = turned(&slots(&[100, 700, 5000]), start, 3);
    let reading = Reading { rain: 0, septic: 0, head, ..example() };
    let (number, amounts) = ring::step(&delayed(1, 3), &PLOT, &mut row, &reading);
    (number, amounts.release, amounts.etstor, [row[2], row[3], row[4]], row[START])
}

/// Slots after 0, 3700, 0, and 700, 5000, 0 over a table at the top, where plants draw nothing.
#[test]
fn draw_on_a_dry_day() {
    let after = [(1, [0, 0, 3700]), (2, [3700, 0, 0]), (0, [0, 3700, 0])];
    let undrawn = [[0, 700, 5000], [5000, 0, 700], [700, 5000, 0]];
    for (start, (next_start, places)) in after.into_iter().enumerate() {
        let of = |head| dry_day(start as u32, head);
        assert_eq!(of(0x410c_0000), (0, 100, 2000, places, next_start));
        assert_eq!(of(0xf149_f2ca), (0, 100, 2000, places, next_start));
        assert_eq!(of(0x4120_0000), (0, 100, 0, undrawn[start], next_start));
    }
}

/// More than waits: every slot gives all, wherever it stands.
#[test]
fn draw_as_far_as_it_goes() {
    for delays in 1..=30 {
        let row = slots(&vec![7; delays as usize]);
        for start in starts(delays) {
            let mut ring = turned(&row, start, delays);
            let reading = Reading { rain: 0, head: 0xf149_f2ca, ..example() };
            let (number, amounts) = ring::step(&delayed(1, delays), &PLOT, &mut ring, &reading);
            let drawn = 7 * i64::from(delays) - 7;
            assert_eq!((number, amounts.release, amounts.etstor), (0, 7, drawn));
            assert_eq!((amounts.left, &ring[2..32]), (0, &[0; 30][..]));
        }
    }
}

/// Water for slot k joins the place that is k - 1 behind the new start.
#[test]
fn deposits_in_each_slot_at_each_start() {
    let soil = [0, 1, 1000, 0, 80];
    for (k, places) in [(1, [1, 2, 0]), (2, [2, 0, 1]), (3, [0, 1, 2])] {
        for (start, place) in places.into_iter().enumerate() {
            let mut row = turned(&slots(&[0, 5, 5]), start as u32, 3);
            let reading = Reading { etmin: 0, pet: 0, head: metres_down(k), ..example() };
            let mut wanted = row;
            let (number, amounts) = ring::step(&delayed(1, 3), &soil, &mut row, &reading);
            assert_eq!((number, amounts.stored, amounts.left), (0, 36_513, 36_523));
            wanted[2 + place] += 36_513;
            assert_eq!(row[2..32], wanted[2..32], "slot {k} start {start}");
        }
    }
}

#[test]
fn no_delays_and_one() {
    let mut row = [0; RING_ROW];
    assert_eq!(ring::step(&card(1, &[]), &PLOT, &mut row, &example()).1.stored, 0);
    assert_eq!((row[1], &row[2..32], row[START]), (1, &[0; 30][..], 0));
    let mut row = [0; RING_ROW];
    let site = card(1, &[1]);
    assert_eq!(ring::step(&site, &PLOT, &mut row, &example()).1.stored, 34_513);
    assert_eq!((row[2], row[START]), (34_513, 0));
    let second = Reading { count: 1, etmin: 0, pet: 0, ..example() };
    let (_, amounts) = ring::step(&site, &PLOT, &mut row, &second);
    assert_eq!((amounts.release, amounts.stored), (34_513, 36_513));
    assert_eq!((row[2], row[START]), (36_513, 0));
}

#[test]
fn full_queues_empty_in_their_order() {
    for delays in 0..=30 {
        let full: Vec<u32> = (1..=delays).map(|k| slot_limit(k, delays)).collect();
        for start in starts(delays) {
            let mut row = turned(&slots(&full), start, delays);
            for (count, due) in full.iter().enumerate() {
                let notice = Void { count: count as u32, ..Void::default() };
                let (number, amounts) = ring::void(&delayed(1, delays), &PLOT, &mut row, &notice);
                assert_eq!((number, amounts.release), (0, i64::from(*due)));
            }
            // Once round.
            assert_eq!((&row[2..36], row[START]), (&[0; 34][..], start));
        }
    }
}

/// A site's plain rows, and ring rows beside them.
struct Both {
    site: Site,
    ring: Vec<u32>,
}

impl Both {
    /// Both sets of rows cleared, from anything.
    fn cleared(site: Site) -> Both {
        let ring = vec![77; RING_ROW * site.card.cells as usize];
        let mut both = Both { site, ring };
        let numbers = (
            step::clear(&both.site.card, &mut both.site.rows),
            ring::clear(&both.site.card, &mut both.ring),
        );
        assert_eq!(numbers, (0, 0));
        both.alike();
        both
    }

    /// The ring read from its start is the plain row, in every cell.
    fn alike(&self) {
        let delays = self.site.card.delays;
        let read: Vec<u32> =
            self.ring.chunks(RING_ROW).flat_map(|row| read_from_start(row, delays)).collect();
        assert_eq!(read, self.site.rows);
        assert!(self.ring.chunks(RING_ROW).all(|row| starts(delays).contains(&row[START])));
    }

    /// One entry, answered alike; refused, it leaves the ring rows.
    fn enter(&mut self, entry: &Entry) -> u32 {
        let (card, soil, before) = (&self.site.card, &self.site.soil, self.ring.clone());
        let wanted = step::enter(card, soil, &mut self.site.rows, entry);
        assert_eq!(ring::enter(card, soil, &mut self.ring, entry), wanted, "{entry:?}");
        assert!(wanted.0 == 0 || self.ring == before);
        self.alike();
        wanted.0
    }

    /// Collect a cell, alike; the ring stays where it is.
    fn collect(&mut self, cell: u32) {
        let before = self.ring.clone();
        let wanted = sums::collect(&self.site.card, &mut self.site.rows, cell);
        assert_eq!(ring::collect(&self.site.card, &mut self.ring, cell), wanted);
        for (after, row) in self.ring.chunks(RING_ROW).zip(before.chunks(RING_ROW)) {
            assert_eq!((&after[..32], after[START]), (&row[..32], row[START]));
        }
        self.alike();
    }
}

/// Three times round and some, over changing tables, in rain and on dry days, with voids and new batteries.
#[test]
fn runs_from_cleared_rows() {
    for delays in [0, 1, 2, 3, 5, 17, 29, 30] {
        let dice = &mut Dice::new(u64::from(delays));
        let soil = vec![0, 5_000_000, 1000, 1_000_000, 40];
        let card = delayed(1, delays);
        let mut both = Both::cleared(Site { card, soil, rows: vec![0; ROW], usual: vec![0] });
        for taken in 0..3 * delays + 5 {
            let delay = dice.below(u64::from(delays) + 1) as u32;
            let mut reading = wet_reading(&both.site, dice, delay, 5);
            if dice.once_in(9) {
                (reading.life, reading.count) = (reading.life + 1, 0);
            }
            let void = dice.once_in(5);
            let entry = if void { Entry::Void(reading.turn()) } else { Entry::Reading(reading) };
            assert_eq!(both.enter(&entry), 0);
            assert_eq!(both.ring[START], (taken + 1) % delays.max(1));
        }
    }
}

/// Made sites and entries, refused ones too, with collections and changes of engine among them.
#[test]
fn made_runs() {
    let mut met = [0; 24];
    for seed in 0..60 {
        let dice = &mut Dice::new(seed);
        let mut both = Both::cleared(Site::made(dice));
        for _ in 0..300 {
            met[both.enter(&next_entry(&both.site, dice, 12)) as usize] += 1;
            match dice.below(40) {
                0 => both.collect(dice.place(both.site.card.cells as usize) as u32),
                1 => assert_eq!(ring::to_ring(&both.site.card, &both.site.rows, &mut both.ring), 0),
                _ => {}
            }
        }
    }
    for number in [0, 3, 6, 7, 8, 9, 10, 17] {
        assert!(met[number] > 50, "{met:?}");
    }
}

/// Any row in range at any start, near its limits often, under any entry.
#[test]
fn any_row_at_any_start() {
    let (mut accepted, mut full) = (0, 0);
    for seed in 0..400 {
        let dice = &mut Dice::new(seed);
        let mut both = Both::cleared(Site::made(dice));
        let delays = both.site.card.delays;
        for _ in 0..20 {
            both.ring.clear();
            for row in both.site.rows.chunks_mut(ROW) {
                row.copy_from_slice(&some_row(dice, delays));
                let start = dice.below(u64::from(delays.max(1))) as u32;
                both.ring.extend(turned(row, start, delays));
            }
            let number = both.enter(&next_entry(&both.site, dice, 6));
            accepted += u32::from(number == 0);
            full += u32::from(number == 15);
        }
    }
    assert!(accepted > 3000 && full > 300, "{accepted} {full}");
}
