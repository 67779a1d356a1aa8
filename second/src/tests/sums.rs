//! Sums of runoff and drainage: what steps and voids do to them, both sides of 10^18, and collecting them.

use super::{card, example, PLOT};
use crate::made::dice::Dice;
use crate::made::entries::next_entry;
use crate::made::site::Site;
use crate::made::sums::made_sums;
use crate::numbers::{row_in_range, Amounts, Card, Reading, Void, OLD_ROW, ROW};
use crate::step::{clear, enter, step, void};
use crate::sums::{collect, grow, shrink, Sums, MOST_SUMMED};

/// 10^18 as a high and a low number.
const MOST: [u32; 2] = [232_830_643, 2_808_348_672];

/// Both sums.
fn sums(runoff: u64, drainage: u64) -> Sums {
    Sums { runoff, drainage }
}

/// A row of zeros but for its sums.
fn row_with(held: Sums) -> [u32; ROW] {
    let mut row = [0; ROW];
    held.write(&mut row);
    row
}

/// A cell that is flooded half a metre deep and drains a tenth of that: 50,800 run off and 50,000 drain.
fn flooded() -> Reading {
    Reading { head: 0x4128_0000, ..example() }
}

/// The most that a step adds: all of 1.6 metres runs off, and a table 20 km above the top drains whole.
fn deluge() -> (Reading, [i64; 5]) {
    let reading = Reading { rain: 600_000, irrig: 1_000_000, head: 0x461c_4000, ..example() };
    (reading, [-10_000_000_000, 1, 1, 1_000_000, 1])
}

/// A reading over a row with these sums: its number and the sums then. Refused, it changes nothing.
fn stepped(held: Sums, reading: &Reading, soil: &[i64]) -> (u32, Sums) {
    let (before, mut row) = (row_with(held), row_with(held));
    let (number, amounts) = step(&card(1, &[]), soil, &mut row, reading);
    if number != 0 {
        assert_eq!((row, amounts), (before, Amounts::default()));
    }
    (number, Sums::of(&row))
}

#[test]
fn where_they_stand() {
    let mut row: [u32; ROW] = std::array::from_fn(|place| place as u32);
    assert_eq!(Sums::of(&row), sums((32 << 32) + 33, (34 << 32) + 35));
    sums(5, (7 << 32) + 6).write(&mut row);
    assert_eq!((row[31], row[32..].to_vec()), (31, vec![0, 5, 7, 6]));
    assert_eq!(Sums::of(&row), sums(5, (7 << 32) + 6));
}

#[test]
fn the_most_of_a_sum() {
    let row = row_with(sums(MOST_SUMMED, MOST_SUMMED));
    assert_eq!((&row[32..34], &row[34..]), (&MOST[..], &MOST[..]));
    assert_eq!(MOST_SUMMED, 10u64.pow(18));
}

#[test]
fn a_step_adds_its_runoff_and_its_drain() {
    assert_eq!(stepped(sums(0, 0), &example(), &PLOT), (0, sums(14_287, 0)));
    assert_eq!(stepped(sums(0, 0), &flooded(), &PLOT), (0, sums(50_800, 50_000)));
    assert_eq!(stepped(sums(7, 9), &flooded(), &PLOT), (0, sums(50_807, 50_009)));
    let dry = Reading { rain: 0, ..example() };
    assert_eq!(stepped(sums(7, 9), &dry, &PLOT), (0, sums(7, 9)));
    let (most, soil) = deluge();
    assert_eq!(stepped(sums(0, 0), &most, &soil), (0, sums(1_600_000, 20_000_000_000)));
}

/// Both sides of the place where the low number overflows into the high one.
#[test]
fn carries() {
    let end = 1u64 << 32;
    for (below, row) in [(50_801, [0, u32::MAX]), (50_800, [1, 0]), (50_799, [1, 1])] {
        let mut after = row_with(sums(end - below, 3 * end - 50_001));
        assert_eq!(step(&card(1, &[]), &PLOT, &mut after, &flooded()).0, 0);
        assert_eq!((&after[32..34], &after[34..]), (&row[..], &[2, u32::MAX][..]));
    }
    // 20,000,000,000 is 4 x 2^32 and 2,820,130,816.
    let (most, soil) = deluge();
    let mut after = row_with(sums(end - 1, end - 1));
    assert_eq!(step(&card(1, &[]), &soil, &mut after, &most).0, 0);
    assert_eq!(after[32..], [1, 1_599_999, 5, 2_820_130_815]);
}

#[test]
fn number_15() {
    let most = MOST_SUMMED;
    let of = |runoff, drainage| stepped(sums(runoff, drainage), &flooded(), &PLOT);
    assert_eq!(of(most - 50_800, most - 50_000), (0, sums(most, most)));
    for (runoff, drainage) in [(50_799, 50_000), (50_800, 49_999), (50_799, 49_999), (0, 0)] {
        let held = sums(most - runoff, most - drainage);
        assert_eq!(of(held.runoff, held.drainage), (15, held));
    }
    assert_eq!(of(most, 0), (15, sums(most, 0)));
    assert_eq!(of(0, most), (15, sums(0, most)));
    // Where nothing runs off and nothing drains, full sums stay full.
    let dry = Reading { rain: 0, ..example() };
    assert_eq!(stepped(sums(most, most), &dry, &PLOT), (0, sums(most, most)));
    // Runoff alone meets a full sum of drainage without harm.
    assert_eq!(stepped(sums(0, most), &example(), &PLOT), (0, sums(14_287, most)));
}

#[test]
fn number_15_is_the_last_of_all_checks() {
    let full = sums(MOST_SUMMED, MOST_SUMMED);
    let of = |reading| stepped(full, &reading, &PLOT).0;
    assert_eq!(of(flooded()), 15);
    assert_eq!(of(Reading { head: 0x7149_f2ca, ..flooded() }), 10);
    assert_eq!(of(Reading { head: 0x7fc0_0000, ..flooded() }), 9);
    assert_eq!(of(Reading { rain: 600_001, ..flooded() }), 17);
    assert_eq!(of(Reading { amc: 0, ..flooded() }), 8);
    assert_eq!(of(Reading { count: 1, ..flooded() }), 7);
    assert_eq!(of(Reading { cell: 1, ..flooded() }), 3);
}

/// The count stays open: once the sums are collected, the same reading is accepted.
#[test]
fn collecting_makes_room() {
    let (site, mut row) = (card(1, &[]), row_with(sums(MOST_SUMMED, 0)));
    assert_eq!(step(&site, &PLOT, &mut row, &example()).0, 15);
    assert_eq!(collect(&site, &mut row, 0), (0, sums(MOST_SUMMED, 0)));
    assert_eq!(step(&site, &PLOT, &mut row, &example()).0, 0);
    assert_eq!((row[1], Sums::of(&row)), (1, sums(14_287, 0)));
}

#[test]
fn a_void_adds_nothing() {
    for held in [sums(0, 0), sums(5, 6), sums(MOST_SUMMED, MOST_SUMMED)] {
        let mut row = row_with(held);
        row[2] = 9;
        let (number, amounts) = void(&card(1, &[1]), &PLOT, &mut row, &Void::default());
        assert_eq!((number, amounts.release, row[1]), (0, 9, 1));
        assert_eq!(Sums::of(&row), held);
    }
}

/// What calls on a row with these four last numbers give: a step, a void, collecting and a move back.
fn numbers(last: [u32; 4]) -> [u32; 4] {
    let (site, mut row) = (card(1, &[]), [0; ROW]);
    row[32..].copy_from_slice(&last);
    let calls = [
        step(&site, &PLOT, &mut row.clone(), &Reading { rain: 0, ..example() }).0,
        void(&site, &PLOT, &mut row.clone(), &Void::default()).0,
        collect(&site, &mut row.clone(), 0).0,
        shrink(&site, &row, &mut [0; OLD_ROW]),
    ];
    assert_eq!(row_in_range(&row, 0), calls[0] == 0);
    calls
}

#[test]
fn number_5_for_a_sum() {
    let [high, low] = MOST;
    for place in [0, 2] {
        let of = |high, low| {
            let mut last = [0; 4];
            (last[place], last[place + 1]) = (high, low);
            numbers(last)
        };
        let (held, bad) = ([0, 0, 0, 16], [5; 4]);
        assert_eq!([of(0, 0), of(0, 1), of(1, 0)], [[0; 4], held, held]);
        assert_eq!([of(high, low), of(high - 1, u32::MAX), of(high, 0)], [held; 3]);
        assert_eq!([of(high, low + 1), of(high + 1, 0), of(u32::MAX, u32::MAX)], [bad; 3]);
    }
}

#[test]
fn clearing_sets_them_to_0() {
    let mut rows = [row_with(sums(1 << 40, 3)), [u32::MAX; ROW]].concat();
    assert_eq!(clear(&card(2, &[]), &mut rows), 0);
    assert_eq!(rows, [0; 2 * ROW]);
}

/// Three rows in range with sums of their own, and a card with as many delays.
fn three() -> (Card, Vec<u32>) {
    let site = card(3, &[5, 6]);
    let row = |n: u64| {
        let mut row = row_with(sums((n << 32) + 7, (3 * n << 32) + n));
        row[..4].copy_from_slice(&[n as u32, 9, 50 * n as u32, 1]);
        row
    };
    (site, [row(1), row(2), row(3)].concat())
}

#[test]
fn collecting_gives_both_and_sets_them_to_0_and_nothing_else() {
    let (site, rows) = three();
    for cell in 0..3u32 {
        let (mut after, mut wanted) = (rows.clone(), rows.clone());
        let n = u64::from(cell) + 1;
        let taken = sums((n << 32) + 7, (3 * n << 32) + n);
        assert_eq!(collect(&site, &mut after, cell), (0, taken));
        wanted[ROW * cell as usize + 32..][..4].fill(0);
        assert_eq!(after, wanted);
        assert_eq!(collect(&site, &mut after, cell), (0, sums(0, 0)));
        assert_eq!(after, wanted);
    }
}

/// The number of a collection that must change nothing and give zeros if it is refused.
fn of_collecting(site: &Card, rows: &[u32], cell: u32) -> u32 {
    let mut after = rows.to_vec();
    let (number, taken) = collect(site, &mut after, cell);
    if number != 0 {
        assert_eq!((after, taken), (rows.to_vec(), sums(0, 0)));
    }
    number
}

/// Each fault, put in from the last check to the first, takes over the number.
#[test]
fn the_order_of_the_checks_of_collecting() {
    let (mut site, mut rows) = three();
    assert_eq!(of_collecting(&site, &rows, 2), 0);
    rows[2 * ROW + 4] = 1;
    assert_eq!(of_collecting(&site, &rows, 2), 5);
    assert_eq!([3, 256, u32::MAX].map(|cell| of_collecting(&site, &rows, cell)), [3; 3]);
    rows.pop();
    assert_eq!(of_collecting(&site, &rows, 3), 2);
    assert_eq!(of_collecting(&site, &rows[..3 * OLD_ROW], 3), 2);
    site.share = 4;
    assert_eq!(of_collecting(&site, &rows, 3), 1);
}

#[test]
fn collecting_looks_at_the_whole_row_of_its_cell_and_at_no_other() {
    let (site, rows) = three();
    for (place, kept) in
        [(0, 65_536), (1, 1_000_001), (2, 4_000_001), (4, 1), (31, 1), (32, MOST[0] + 1)]
    {
        let mut bad = rows.clone();
        bad[ROW + place] = kept;
        let numbers = [0, 1, 2].map(|cell| of_collecting(&site, &bad, cell));
        assert_eq!(numbers, [0, 5, 0], "place {place}");
    }
}

/// What each cell's answers reported, and what was collected of it.
struct Account {
    reported: Vec<Sums>,
    collected: Vec<Sums>,
}

/// Two sums, each added to the other's like.
fn both(one: Sums, other: Sums) -> Sums {
    sums(one.runoff + other.runoff, one.drainage + other.drainage)
}

impl Account {
    /// Collect a cell.
    fn collect(&mut self, site: &mut Site, cell: usize) {
        let (number, taken) = collect(&site.card, &mut site.rows, cell as u32);
        assert_eq!(number, 0);
        self.collected[cell] = both(self.collected[cell], taken);
    }

    /// Collected plus still held is what was held at first and what the answers reported.
    fn holds(&self, first: &[Sums], site: &Site) {
        for (cell, row) in site.rows.chunks(ROW).enumerate() {
            let wanted = both(first[cell], self.reported[cell]);
            assert_eq!(both(self.collected[cell], Sums::of(row)), wanted, "cell {cell}");
        }
    }
}

/// A site moved back to rows without sums, if it can be, and over again.
fn back_and_over(site: &mut Site) -> u32 {
    let mut old = vec![9; OLD_ROW * site.card.cells as usize];
    let number = shrink(&site.card, &site.rows, &mut old);
    if number == 0 {
        let before = std::mem::replace(&mut site.rows, vec![7; ROW * site.card.cells as usize]);
        assert_eq!(grow(&site.card, &old, &mut site.rows), 0);
        assert_eq!(site.rows, before);
    }
    number
}

/// Runs of readings and voids with collections and moves among them, from rows that were cleared or that hold something.
#[test]
fn collected_plus_still_held_equals_what_the_answers_reported() {
    let (mut full, mut moved, mut held_up) = (0, 0, 0);
    for seed in 0..60 {
        let dice = &mut Dice::new(seed);
        let mut site = Site::made(dice);
        if seed % 2 == 1 {
            site.rows.chunks_mut(ROW).for_each(|row| made_sums(dice).write(row));
        }
        let first: Vec<Sums> = site.rows.chunks(ROW).map(Sums::of).collect();
        let nothing = vec![sums(0, 0); first.len()];
        let mut account = Account { reported: nothing.clone(), collected: nothing };
        for _ in 0..300 {
            let entry = next_entry(&site, dice, 12);
            let cell = entry.turn().cell as usize;
            let (number, a) = enter(&site.card, &site.soil, &mut site.rows, &entry);
            if number == 0 {
                let more = sums(a.runoff as u64, a.drain as u64);
                account.reported[cell] = both(account.reported[cell], more);
            }
            if number == 15 {
                full += 1;
                account.collect(&mut site, cell);
            }
            match dice.below(60) {
                0 => (0..first.len()).for_each(|cell| account.collect(&mut site, cell)),
                1 | 2 => account.collect(&mut site, dice.place(first.len())),
                _ => {}
            }
            if dice.once_in(30) {
                let number = back_and_over(&mut site);
                assert!(number == 0 || number == 16);
                moved += u32::from(number == 0);
                held_up += u32::from(number == 16);
            }
            account.holds(&first, &site);
        }
    }
    assert!(full > 10 && moved > 20 && held_up > 100, "{full} {moved} {held_up}");
}
