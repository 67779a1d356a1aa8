//! The outbox: both sides of each number, what each call does, and its numbers there and back.

use super::example;
use crate::numbers::{Entry, Reading, Turn};
use crate::outbox::{entry_numbers, entry_of, Outbox, BOX, ENTRY};

/// A reading of cell 7 in life 3, its rain by its count.
fn reading(count: u32) -> Entry {
    Entry::Reading(Reading { cell: 7, life: 3, count, rain: 1 + count, ..example() })
}

/// A void of cell 7 in life 3.
fn void(count: u32) -> Entry {
    Entry::Void(Turn { cell: 7, life: 3, count })
}

/// The outbox of cell 7 in life 3 with so many readings up to a next count.
fn holding(held: u32, next: u32) -> Outbox {
    Outbox { cell: 7, life: 3, next, unheard: (next - held..next).map(reading).collect() }
}

/// The counts of the entries held, the oldest first.
fn counts(outbox: &Outbox) -> Vec<u32> {
    outbox.unheard.iter().map(|entry| entry.turn().count).collect()
}

/// The 334 numbers of an outbox, written over others.
fn numbers(outbox: &Outbox) -> [u32; BOX] {
    let mut numbers = [9; BOX];
    outbox.write(&mut numbers);
    numbers
}

/// The number of a call that must leave the outbox alone if it is refused.
fn number<T>(outbox: &Outbox, call: impl FnOnce(&mut Outbox) -> Result<T, u32>) -> u32 {
    let mut after = outbox.clone();
    match call(&mut after) {
        Ok(_) => 0,
        Err(number) => {
            assert_eq!(after, *outbox);
            number
        }
    }
}

/// The number of adding an entry.
fn of_add(outbox: &Outbox, entry: Entry) -> u32 {
    number(outbox, |outbox| outbox.add(&entry))
}

/// The number of a battery swap.
fn of_swap(outbox: &Outbox, life: u32) -> u32 {
    number(outbox, |outbox| outbox.swap(life))
}

/// The one number that all calls on an outbox give where the form decides.
fn of_form(outbox: &Outbox) -> u32 {
    let numbers = [
        number(outbox, |outbox| outbox.offer()),
        of_add(outbox, Entry::Void(outbox.turn(outbox.next))),
        number(outbox, |outbox| outbox.replace()),
        number(outbox, |outbox| outbox.acknowledge(outbox.life, outbox.next)),
        of_swap(outbox, outbox.life.wrapping_add(1)),
    ];
    if outbox.in_form() {
        assert!(!numbers.contains(&23), "{numbers:?}");
    } else {
        assert_eq!(numbers, [23; 5]);
    }
    numbers[0]
}

#[test]
fn a_fresh_outbox() {
    let of = |cell| Outbox::fresh(cell).map(|outbox| numbers(&outbox)[..5].to_vec());
    assert_eq!(of(0), Ok(vec![0, 0, 0, 0, 0]));
    assert_eq!(of(255), Ok(vec![255, 0, 0, 0, 0]));
    assert_eq!([256, 257, u32::MAX].map(of), [Err(14), Err(14), Err(14)]);
    assert!(Outbox::fresh(255).unwrap().in_form());
}

#[test]
fn number_23_for_a_range() {
    let empty = |cell, life, next| of_form(&Outbox { cell, life, next, ..holding(0, 0) });
    assert_eq!([255, 256, u32::MAX].map(|cell| empty(cell, 0, 0)), [0, 23, 23]);
    assert_eq!([65_535, 65_536, u32::MAX].map(|life| empty(0, life, 0)), [0, 23, 23]);
    assert_eq!([1_000_000, 1_000_001, u32::MAX].map(|next| empty(0, 0, next)), [0, 23, 23]);
    assert_eq!([29, 30, 31, 32].map(|held| of_form(&holding(held, 40))), [0, 0, 23, 23]);
    assert_eq!([999_999, 1_000_000, 1_000_001].map(|next| of_form(&holding(9, next))), [0, 0, 23]);
}

#[test]
fn number_23_for_more_entries_than_counts() {
    let of = |next| of_form(&Outbox { next, ..holding(5, 5) });
    assert_eq!([4, 5, 6, 0].map(of), [23, 0, 23, 23]);
    // Counts do not run up to the next one through the end of 32 bits.
    let wrapped = [void(u32::MAX), void(0)].into();
    assert_eq!(of_form(&Outbox { unheard: wrapped, ..holding(0, 1) }), 23);
}

#[test]
fn number_23_for_an_entry() {
    for place in 0..4 {
        let of = |change: fn(&mut Turn)| {
            let mut outbox = holding(4, 20);
            let mut turn = outbox.unheard[place].turn();
            change(&mut turn);
            outbox.unheard[place] = Entry::Void(turn);
            of_form(&outbox)
        };
        assert_eq!(of(|_| ()), 0);
        assert_eq!(of(|turn| turn.cell += 1), 23);
        assert_eq!(of(|turn| turn.life += 1), 23);
        assert_eq!(of(|turn| turn.life -= 1), 23);
        assert_eq!(of(|turn| turn.count += 1), 23);
        assert_eq!(of(|turn| turn.count -= 1), 23);
    }
}

#[test]
fn number_23_for_counts_out_of_order() {
    let of = |counts: &[u32]| {
        let unheard = counts.iter().copied().map(reading).collect();
        of_form(&Outbox { unheard, ..holding(0, 10) })
    };
    assert_eq!([of(&[]), of(&[9]), of(&[7, 8, 9])], [0, 0, 0]);
    assert_eq!([of(&[8]), of(&[10]), of(&[7, 9]), of(&[8, 8, 9])], [23; 4]);
    assert_eq!([of(&[9, 8, 7]), of(&[7, 8, 9, 10]), of(&[6, 7, 8])], [23; 3]);
}

/// Nothing is asked of a reading's figures, which the gateway will check.
#[test]
fn any_figures_are_held() {
    let most = u32::MAX;
    let wild = Reading { cell: 7, life: 3, count: 0, rain: most, amc: most, ..example() };
    let mut outbox = holding(0, 0);
    assert_eq!(outbox.add(&Entry::Reading(wild)), Ok(()));
    assert_eq!(outbox.offer(), Ok(Some(Entry::Reading(wild))));
}

#[test]
fn number_14_for_an_entry() {
    let outbox = holding(2, 9);
    let of = |cell, life, count| of_add(&outbox, Entry::Void(Turn { cell, life, count }));
    assert_eq!(of(7, 3, 9), 0);
    assert_eq!([6, 8, 256, u32::MAX].map(|cell| of(cell, 3, 9)), [14; 4]);
    assert_eq!([2, 4, 65_536, u32::MAX].map(|life| of(7, life, 9)), [14; 4]);
    assert_eq!([0, 8, 10, 1_000_000, u32::MAX].map(|count| of(7, 3, count)), [14; 5]);
    assert_eq!([of_add(&outbox, reading(9)), of_add(&outbox, reading(8))], [0, 14]);
}

#[test]
fn the_last_count_of_a_life() {
    let mut outbox = holding(1, 999_999);
    assert_eq!(outbox.add(&reading(999_999)), Ok(()));
    assert_eq!((outbox.next, counts(&outbox)), (1_000_000, vec![999_998, 999_999]));
    assert_eq!([of_add(&outbox, reading(1_000_000)), of_add(&outbox, void(1_000_000))], [14, 14]);
    assert_eq!(of_add(&holding(30, 1_000_000), reading(1_000_000)), 14);
    assert_eq!(outbox.acknowledge(3, 1_000_000), Ok(()));
    assert_eq!((outbox.next, outbox.offer()), (1_000_000, Ok(None)));
}

#[test]
fn number_13() {
    let held = [0, 28, 29, 30];
    assert_eq!(held.map(|held| of_add(&holding(held, 30), reading(30))), [0, 0, 0, 13]);
    assert_eq!(held.map(|held| of_add(&holding(held, 30), void(30))), [0, 0, 0, 13]);
}

/// Each fault, put in from the last check to the first, takes over the number.
#[test]
fn the_order_of_the_checks() {
    let mut outbox = holding(30, 40);
    assert_eq!(of_add(&outbox, reading(40)), 13);
    assert_eq!([of_add(&outbox, reading(41)), of_swap(&outbox, 3)], [14, 14]);
    outbox.unheard[29] = reading(38);
    assert_eq!([of_add(&outbox, reading(41)), of_swap(&outbox, 3)], [23, 23]);
    assert_eq!(of_add(&outbox, reading(40)), 23);
}

#[test]
fn the_oldest_is_offered() {
    let mut outbox = holding(3, 3);
    assert_eq!(outbox.offer(), Ok(Some(reading(0))));
    assert_eq!(outbox.offer(), Ok(Some(reading(0))));
    assert_eq!(outbox.acknowledge(3, 2), Ok(()));
    assert_eq!(outbox.offer(), Ok(Some(reading(2))));
    assert_eq!(outbox.acknowledge(3, 3), Ok(()));
    assert_eq!(outbox.offer(), Ok(None));
}

#[test]
fn new_entries_stand_behind() {
    let mut outbox = Outbox { cell: 7, life: 3, ..Outbox::fresh(7).unwrap() };
    for entry in [reading(0), void(1), reading(2)] {
        assert_eq!(outbox.add(&entry), Ok(()));
    }
    assert_eq!(outbox.unheard, [reading(0), void(1), reading(2)]);
    assert_eq!((outbox.next, outbox.oldest()), (3, 0));
}

#[test]
fn a_void_in_place_of_the_oldest() {
    let mut outbox = holding(3, 9);
    for _ in 0..2 {
        assert_eq!(outbox.replace(), Ok(true));
        assert_eq!(
            outbox,
            Outbox { unheard: [void(6), reading(7), reading(8)].into(), ..outbox.clone() }
        );
        assert_eq!((outbox.next, outbox.offer()), (9, Ok(Some(void(6)))));
    }
    assert_eq!(outbox.acknowledge(3, 7), Ok(()));
    assert_eq!((outbox.replace(), outbox.offer()), (Ok(true), Ok(Some(void(7)))));
}

#[test]
fn empty() {
    for next in [0, 5, 1_000_000] {
        let mut outbox = holding(0, next);
        assert_eq!((outbox.offer(), outbox.replace()), (Ok(None), Ok(false)));
        assert_eq!(outbox, holding(0, next));
    }
}

/// What is held after an acknowledgement by an outbox with counts 5 to 8 of life 3.
fn after(life: u32, count: u32) -> Vec<u32> {
    let mut outbox = holding(4, 9);
    assert_eq!(outbox.acknowledge(life, count), Ok(()));
    assert_eq!((outbox.cell, outbox.life, outbox.next), (7, 3, 9));
    assert!(outbox.unheard.iter().all(|entry| *entry == reading(entry.turn().count)));
    counts(&outbox)
}

#[test]
fn acknowledgements_that_change_nothing() {
    // At or below the oldest count.
    assert_eq!([0, 4, 5].map(|count| after(3, count)), [[5, 6, 7, 8]; 3]);
    // Past the next unused one.
    assert_eq!([10, 11, u32::MAX].map(|count| after(3, count)), [[5, 6, 7, 8]; 3]);
    // Of another life.
    for life in [0, 2, 4, 65_535, u32::MAX] {
        assert_eq!([6, 7, 9].map(|count| after(life, count)), [[5, 6, 7, 8]; 3]);
    }
}

#[test]
fn acknowledgements_that_remove_entries() {
    assert_eq!(after(3, 6), [6, 7, 8]);
    assert_eq!(after(3, 7), [7, 8]);
    assert_eq!(after(3, 8), [8]);
    assert_eq!(after(3, 9), []);
}

#[test]
fn acknowledged_while_empty() {
    for count in [0, 4, 5, 6, u32::MAX] {
        let mut outbox = holding(0, 5);
        assert_eq!(outbox.acknowledge(3, count), Ok(()));
        assert_eq!(outbox, holding(0, 5));
    }
}

#[test]
fn the_room_is_used_again() {
    let mut outbox = holding(30, 30);
    assert_eq!(outbox.add(&reading(30)), Err(13));
    assert_eq!(outbox.acknowledge(3, 2), Ok(()));
    for count in [30, 31] {
        assert_eq!(outbox.add(&reading(count)), Ok(()));
    }
    assert_eq!(outbox.add(&reading(32)), Err(13));
    assert_eq!((counts(&outbox), outbox.in_form()), ((2..32).collect(), true));
    assert_eq!(outbox.acknowledge(3, 32), Ok(()));
    assert_eq!(numbers(&outbox)[..4], [7, 3, 32, 0]);
    assert_eq!(numbers(&outbox)[4..], [0; 330]);
}

#[test]
fn a_battery_swap() {
    let outbox = holding(4, 9);
    let lives = [0, 2, 3, 4, 65_535, 65_536, u32::MAX];
    assert_eq!(lives.map(|life| of_swap(&outbox, life)), [14, 14, 14, 0, 0, 14, 14]);
    for life in [4, 65_535] {
        let mut swapped = outbox.clone();
        assert_eq!(swapped.swap(life), Ok(()));
        assert_eq!(swapped, Outbox { life, ..holding(0, 0) });
        assert_eq!(of_swap(&swapped, life), 14);
    }
    let last = Outbox { life: 65_535, ..holding(0, 0) };
    assert_eq!([65_534, 65_535, 65_536].map(|life| of_swap(&last, life)), [14; 3]);
}

#[test]
fn numbers_there_and_back() {
    let mut outbox = holding(5, 9);
    assert_eq!(outbox.replace(), Ok(true));
    for held in [5, 2, 1, 0] {
        assert_eq!(outbox.acknowledge(3, 9 - held), Ok(()));
        let all = numbers(&outbox);
        assert_eq!(all[..4], [7, 3, 9, held]);
        for (place, entry) in all[4..].chunks(ENTRY).zip(&outbox.unheard) {
            assert_eq!(entry_of(place), Some(*entry));
        }
        assert!(all[4 + ENTRY * held as usize..].iter().all(|number| *number == 0));
        assert_eq!(Outbox::read(&all), Ok(outbox.clone()));
    }
}

#[test]
fn the_numbers_of_an_entry() {
    let [.., rain, irrig, septic, etmin, pet, amc, head] = entry_numbers(&reading(8));
    assert_eq!(
        [rain, irrig, septic, etmin, pet, amc, head],
        [9, 0, 1000, 2000, 5000, 2, 0x410c_0000]
    );
    assert_eq!(entry_numbers(&reading(8))[..4], [0, 7, 3, 8]);
    assert_eq!(entry_numbers(&void(8)), [1, 7, 3, 8, 0, 0, 0, 0, 0, 0, 0]);
    assert_eq!(entry_of(&[0; ENTRY]), Some(Entry::Reading(Reading::default())));
    for kind in [2, 3, u32::MAX] {
        assert_eq!(entry_of(&[kind, 7, 3, 8, 0, 0, 0, 0, 0, 0, 0]), None);
    }
    for place in 4..ENTRY {
        let mut figured = entry_numbers(&void(8));
        figured[place] = 1;
        assert_eq!(entry_of(&figured), None, "place {place}");
    }
    assert_eq!([entry_of(&[0; ENTRY - 1]), entry_of(&[0; ENTRY + 1])], [None, None]);
}

#[test]
fn numbers_that_are_no_outbox() {
    let mut outbox = holding(2, 9);
    assert_eq!(outbox.replace(), Ok(true));
    let of = |place: usize, number: u32| {
        let mut all = numbers(&outbox);
        all[place] = number;
        Outbox::read(&all).err().unwrap_or(0)
    };
    // How many are held, the kinds of both, the void's last figure, a figure of the reading.
    assert_eq!([2, 31, u32::MAX].map(|held| of(3, held)), [0, 23, 23]);
    assert_eq!([of(4, 2), of(15, 1), of(15, 2), of(14, 1), of(25, 1)], [23, 23, 23, 23, 0]);
    for spare in 26..BOX {
        assert_eq!([of(spare, 0), of(spare, 1)], [0, 23], "place {spare}");
    }
}
