//! Made journals: the same each time, every reachable number met, and water kept. Made outboxes.

use crate::journal::waterbook;
use crate::made::dice::Dice;
use crate::made::entries::made_entry;
use crate::made::site::Site;
use crate::made::{journal, journal_of_kind, outboxes};
use crate::numbers::{row_in_range, Amounts, Entry, Reading, OLD_ROW, ROW};
use crate::outbox::{Outbox, BOX};
use crate::step::enter;
use std::collections::BTreeMap;

/// How often each number was met in the books of so many journals.
fn tally(seed: u64, count: u64) -> BTreeMap<String, u64> {
    let mut tally = BTreeMap::new();
    for place in 0..count {
        let book = String::from_utf8(waterbook(&journal(seed, place))).unwrap();
        let codes = book.split([' ', '\n']).filter(|word| word.starts_with("code="));
        for code in codes {
            *tally.entry(code.to_string()).or_insert(0) += 1;
        }
    }
    tally
}

#[test]
fn every_reachable_number_is_met() {
    let tally = tally(2024, 600);
    for number in [0, 1, 3, 4, 6, 7, 8, 9, 10, 12, 17] {
        assert!(tally.contains_key(&format!("code={number}")), "{number} in {tally:?}");
    }
    for number in [2, 5, 11, 15, 16] {
        assert!(!tally.contains_key(&format!("code={number}")), "{number} in {tally:?}");
    }
    println!("{tally:?}");
}

/// Voids in made books: accepted ones, refused ones, and malformed ones that stop the book.
#[test]
fn made_voids_are_met() {
    let (mut accepted, mut refused, mut stops) = (0, 0, 0);
    for place in 0..600 {
        let bytes = journal(2025, place);
        let book = String::from_utf8(waterbook(&bytes)).unwrap();
        if !book.starts_with("cell=") {
            continue;
        }
        let text = String::from_utf8_lossy(&bytes);
        // Line 1 is the card's own, then a line per cell.
        let cells: usize = text[6..].split(' ').next().unwrap().parse().unwrap();
        for (line, answer) in text.lines().skip(1 + cells).zip(book.lines()) {
            match answer.split(' ').find(|word| word.starts_with("code=")) {
                _ if !line.starts_with("void") => {}
                Some("code=0") => accepted += 1,
                Some("code=12") => stops += 1,
                _ => refused += 1,
            }
        }
    }
    assert!(accepted > 1000 && refused > 100 && stops > 5, "{accepted} {refused} {stops}");
}

#[test]
fn the_same_each_time() {
    for place in [0, 1, 77, 123_456] {
        assert_eq!(journal_of_kind(9, place), journal_of_kind(9, place));
    }
    assert_ne!(journal(9, 0), journal(10, 0));
    assert_ne!(journal(9, 0), journal(9, 1));
}

/// What went in must come out: today's water, the queue and the recharge; a void has no water of its own.
fn water_is_kept(entry: &Entry, a: &Amounts, left_before: i64) {
    let r = match entry {
        Entry::Reading(reading) => *reading,
        Entry::Void(_) => Reading::default(),
    };
    let direct = i64::from(r.rain) + i64::from(r.irrig) - a.runoff - a.etvad - a.stored;
    assert!(direct >= 0 && a.runoff >= 0 && a.etvad >= 0 && a.etsat >= 0 && a.drain >= 0);
    assert!(a.etvad + a.etstor + a.etsat <= i64::from(r.pet));
    assert_eq!(a.left, left_before - a.release - a.etstor + a.stored);
    let gains = a.release + direct + i64::from(r.septic);
    assert_eq!(a.recharge, gains - a.etsat - a.drain);
}

#[test]
fn water_is_kept_over_made_runs() {
    let (mut readings, mut voids) = (0, 0);
    for seed in 0..60 {
        let mut dice = Dice::new(seed);
        let mut site = Site::made(&mut dice);
        let mut rows = site.rows.clone();
        for _ in 0..300 {
            let entry = made_entry(&mut site, &mut dice, 12);
            let start = ROW * entry.turn().cell as usize;
            let before = rows
                .get(start + 2..start + OLD_ROW)
                .map_or(0, |s| s.iter().map(|w| i64::from(*w)).sum());
            let (number, amounts) = enter(&site.card, &site.soil, &mut rows, &entry);
            if number == 0 {
                water_is_kept(&entry, &amounts, before);
                assert!(row_in_range(&rows[start..start + ROW], site.card.delays));
                match entry {
                    Entry::Reading(_) => readings += 1,
                    Entry::Void(_) => voids += 1,
                }
            }
        }
    }
    assert!(readings > 10_000 && voids > 1000, "{readings} readings, {voids} voids");
}

#[test]
fn made_outboxes() {
    let dice = &mut Dice::new(31);
    let (mut held, mut damaged, mut other_widths) = ([0; 31], 0, 0);
    for _ in 0..5000 {
        let outbox = outboxes::made(dice);
        assert!(outbox.in_form(), "{outbox:?}");
        held[outbox.unheard.len()] += 1;
        let (_, numbers) = outboxes::lent_box(dice);
        let in_form = Outbox::read(&numbers).is_ok_and(|outbox| outbox.in_form());
        other_widths += u32::from(numbers.len() != BOX);
        damaged += u32::from(numbers.len() == BOX && !in_form);
    }
    assert!(held.iter().all(|times| *times > 20), "{held:?}");
    assert!(damaged > 1000 && other_widths > 100, "{damaged} {other_widths}");
}
