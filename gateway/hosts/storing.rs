//! A host that stores as STORING.md says: `storing SEED SITES` keeps so many sites while the link loses and repeats,
//! sheets fill, the card gets another share, plots are collected, the store fails before or after it is durable, and the
//! power is cut at every point. It holds each book to what the nodes made, and what was collected to the book. Hosts
//! that work in a wrong order must be found out by the same run.

#[allow(dead_code)]
#[path = "../waterbook.rs"]
mod waterbook;

use second::made::dice::Dice;
use std::ops::Range;
use std::process::ExitCode;
use waterbook::{Amounts, Answer, Card, Notice, ROW, Reading};
use waterbook::{Refusal, SHEET, SUMS, Sheet, Sums, USUAL_SHARE};

/// Plots of a site, days that its nodes report, days after which it is collected, sendings after which a node gives up,
/// and the steps of a full sheet.
const PLOTS: usize = 3;
const DAYS: usize = 30;
const PERIOD: usize = 7;
const SENDINGS: usize = 20_000;
const FULL: i64 = 100_000_000;

/// The order in which a host works.
#[derive(Clone, Copy, PartialEq)]
enum Order {
    AsWritten,
    AcknowledgedFirst,
    RowApart,
    AnswerApart,
    SheetApart,
    KeptAfterFailure,
    PutBackAfterFailure,
    FullSheetForgotten,
    ShareNotStored,
    CollectedRowApart,
    CollectedSumsApart,
}

/// The wrong orders by name.
const WRONG: [(Order, &str); 10] = [
    (Order::AcknowledgedFirst, "acknowledged first"),
    (Order::RowApart, "row apart"),
    (Order::AnswerApart, "answer apart"),
    (Order::SheetApart, "sheet apart"),
    (Order::KeptAfterFailure, "memory kept after a failure"),
    (Order::PutBackAfterFailure, "memory put back after a failure"),
    (Order::FullSheetForgotten, "11 not handled"),
    (Order::ShareNotStored, "another share used and not stored"),
    (Order::CollectedRowApart, "row of a collection apart"),
    (Order::CollectedSumsApart, "sums of a collection apart"),
];

/// What a node makes of a day: a reading, or a void where its gauge froze.
#[derive(Clone, Copy, PartialEq)]
enum Entry {
    Reading(Reading),
    Void(Notice),
}

impl Entry {
    /// The plot that it names.
    fn plot(&self) -> usize {
        match self {
            Entry::Reading(reading) => reading[0] as usize,
            Entry::Void(notice) => notice[0] as usize,
        }
    }
}

/// What is kept of a site from step to step; of its card the share alone changes.
#[derive(Clone)]
struct Site {
    share: u32,
    rows: Vec<u32>,
    sheet: Sheet,
}

/// What is to be stored of a plot: an accepted entry with its answer, or what was collected.
enum News {
    Answer(Entry, Amounts),
    Collected(usize, Sums),
}

impl News {
    /// Where the row of its plot stands.
    fn row(&self) -> Range<usize> {
        match self {
            News::Answer(entry, _) => row(entry.plot()),
            News::Collected(plot, _) => row(*plot),
        }
    }
}

/// What an accepted entry or a collection changes: its news, the sheet that it found full, and the site after it.
struct Change {
    news: News,
    full: Option<Sheet>,
    site: Site,
}

impl Site {
    /// Step an entry and add its answer; a full sheet is put away.
    fn step(&mut self, entry: &Entry, order: Order) -> Result<Change, Refusal> {
        let answer = step(self.share, &mut self.rows, entry);
        let (news, mut full) = (News::Answer(*entry, answer?), None);
        if let Err(refusal) = waterbook::add(&mut self.sheet, &answer) {
            if order == Order::FullSheetForgotten {
                return Err(refusal);
            }
            full = Some(std::mem::replace(&mut self.sheet, [0; SHEET]));
            waterbook::add(&mut self.sheet, &answer)?;
        }
        Ok(Change { news, full, site: self.clone() })
    }

    /// Collect a plot.
    fn collect(&mut self, plot: usize) -> Result<Change, Refusal> {
        let sums = collect(self.share, &mut self.rows, plot)?;
        Ok(Change { news: News::Collected(plot, sums), full: None, site: self.clone() })
    }
}

/// A card with two delays and this share.
fn card(share: u32) -> Result<Card, Refusal> {
    waterbook::card(PLOTS as u32, &[1_000_000, 2_000_000], share)
}

/// Collect a plot over a card with this share.
fn collect(share: u32, rows: &mut [u32], plot: usize) -> Result<Sums, Refusal> {
    waterbook::collect(&card(share)?, rows, plot as u32)
}

/// Step an entry over a card with this share.
fn step(share: u32, rows: &mut [u32], entry: &Entry) -> Answer {
    let card = card(share)?;
    let soil = [10_000_000, 1_500_000, 200, 100_000, 80].repeat(PLOTS);
    match entry {
        Entry::Reading(reading) => waterbook::step(&card, &soil, rows, reading),
        Entry::Void(notice) => waterbook::void(&card, &soil, rows, notice),
    }
}

/// Where the row of a plot stands.
fn row(plot: usize) -> Range<usize> {
    ROW * plot..ROW * (plot + 1)
}

/// The parts of a change.
#[derive(Clone, Copy)]
enum Part {
    Row,
    News,
    Sheet,
}

/// What is durable: the site, all answers, what was collected of which plot and at which place among them, the places
/// from which on each share is used, and the sheets that were put away.
struct Disk {
    site: Site,
    book: Vec<(Entry, Amounts)>,
    collected: Vec<(usize, usize, Sums)>,
    shares: Vec<(usize, u32)>,
    full: Vec<Sheet>,
}

impl Disk {
    /// One part of a change becomes durable; what was appended stays for good.
    fn put(&mut self, part: Part, change: &Change) {
        match part {
            Part::Row => {
                let row = change.news.row();
                self.site.rows[row.clone()].copy_from_slice(&change.site.rows[row]);
            }
            Part::News => match change.news {
                News::Answer(entry, amounts) => self.book.push((entry, amounts)),
                News::Collected(plot, sums) => self.collected.push((self.book.len(), plot, sums)),
            },
            Part::Sheet => {
                self.full.extend(change.full);
                self.site.sheet = change.site.sheet;
            }
        }
    }

    /// The share of the card when the answer at a place was given.
    fn share_at(&self, place: usize) -> u32 {
        let used = self.shares.iter().rev().find(|(from, _)| *from <= place);
        used.map_or(USUAL_SHARE, |(_, share)| *share)
    }
}

/// How often the power was cut, and the store failed with nothing durable and with all of it.
#[derive(Default)]
struct Mishaps {
    cuts: usize,
    lost: usize,
    durable: usize,
}

/// A gateway: what is on its disk, and what is in memory until the next cut.
struct Gateway {
    order: Order,
    disk: Disk,
    memory: Site,
    mishaps: Mishaps,
}

impl Gateway {
    /// A gateway on the first day of a site.
    fn first(order: Order, sheet: Sheet) -> Gateway {
        let site = Site { share: USUAL_SHARE, rows: vec![0; ROW * PLOTS], sheet };
        let (book, collected, shares, full) = Default::default();
        let disk = Disk { site: site.clone(), book, collected, shares, full };
        Gateway { order, disk, memory: site, mishaps: Mishaps::default() }
    }

    /// Memory is what the disk has.
    fn read_back(&mut self) {
        self.memory = self.disk.site.clone();
    }

    /// The power is cut, now and then.
    fn cut(&mut self, dice: &mut Dice) -> bool {
        let cut = dice.once_in(20);
        if cut {
            self.read_back();
            self.mishaps.cuts += 1;
        }
        cut
    }

    /// The card gets another share: stored with its place among the answers, then used. The rows stay.
    fn change_share(&mut self, share: u32) {
        if self.order != Order::ShareNotStored {
            self.disk.site.share = share;
            self.disk.shares.push((self.disk.book.len(), share));
        }
        self.memory.share = share;
    }

    /// The acknowledgement of a plot: its life and next count.
    fn acknowledged(&self, entry: &Entry) -> Option<[u32; 2]> {
        let row = &self.memory.rows[row(entry.plot())];
        Some([row[0], row[1]])
    }

    /// Take an entry that arrives; the acknowledgement, if one is sent.
    fn take(&mut self, entry: &Entry, dice: &mut Dice) -> Option<[u32; 2]> {
        let before = self.memory.clone();
        if self.cut(dice) {
            return None;
        }
        let change = match self.memory.step(entry, self.order) {
            Ok(change) => change,
            Err(Refusal::Old) => return self.acknowledged(entry),
            Err(_) => return None,
        };
        let early = self.acknowledged(entry);
        let stored = !self.cut(dice) && self.store(&change, before, dice) && !self.cut(dice);
        if self.order == Order::AcknowledgedFirst { early } else { early.filter(|_| stored) }
    }

    /// Collect a plot, and store what came with the row in which it no longer is.
    fn collect(&mut self, plot: usize, dice: &mut Dice) {
        let before = self.memory.clone();
        if self.cut(dice) {
            return;
        }
        let Ok(change) = self.memory.collect(plot) else { return };
        if !self.cut(dice) && self.store(&change, before, dice) {
            self.cut(dice);
        }
    }

    /// Store a change; false where the store fails, durable or not, or the power is cut.
    fn store(&mut self, change: &Change, before: Site, dice: &mut Dice) -> bool {
        let (fails, lost) = (dice.once_in(10), dice.once_in(2));
        if fails && lost {
            self.mishaps.lost += 1;
            self.failed(before);
            return false;
        }
        if !self.write(change, dice) {
            return false;
        }
        if fails {
            self.mishaps.durable += 1;
            self.failed(before);
        }
        !fails
    }

    /// All parts of a change become durable, together where the order is right; false where the power is cut between.
    fn write(&mut self, change: &Change, dice: &mut Dice) -> bool {
        let (apart, together) = match (self.order, &change.news) {
            (Order::RowApart, News::Answer(..))
            | (Order::CollectedRowApart, News::Collected(..)) => {
                (Some(Part::Row), [Part::News, Part::Sheet].as_slice())
            }
            (Order::AnswerApart, News::Answer(..))
            | (Order::CollectedSumsApart, News::Collected(..)) => {
                (Some(Part::News), [Part::Row, Part::Sheet].as_slice())
            }
            (Order::SheetApart, _) => (Some(Part::Sheet), [Part::Row, Part::News].as_slice()),
            _ => (None, [Part::Row, Part::News, Part::Sheet].as_slice()),
        };
        if let Some(part) = apart {
            self.disk.put(part, change);
            if self.cut(dice) {
                return false;
            }
        }
        together.iter().for_each(|part| self.disk.put(*part, change));
        true
    }

    /// The store reports a failure, and only the disk knows what is durable.
    fn failed(&mut self, before: Site) {
        match self.order {
            Order::KeptAfterFailure => {}
            Order::PutBackAfterFailure => self.memory = before,
            _ => self.read_back(),
        }
    }
}

/// A node: all entries that it made, how many were acknowledged, and where its present life began.
#[derive(Default)]
struct Node {
    made: Vec<Entry>,
    heard: usize,
    life: u32,
    began: usize,
}

impl Node {
    /// Make the day's reading, or its void; a fresh battery comes only when all is acknowledged.
    fn make(&mut self, plot: usize, dice: &mut Dice) {
        if self.heard == self.made.len() && dice.once_in(10) {
            self.life += 1;
            self.began = self.heard;
        }
        let (rain, head) = (dice.below(60_000) as u32, dice.pick(&[8.75f32, 7.5, 9.99, 10.5]));
        let count = (self.made.len() - self.began) as u32;
        let turn = [plot as u32, self.life, count];
        let figures = [rain, 0, 500, 2_000, 5_000, 2, head.to_bits()];
        if dice.once_in(8) {
            self.made.push(Entry::Void(turn));
            return;
        }
        let mut reading = [0; 10];
        reading[..3].copy_from_slice(&turn);
        reading[3..].copy_from_slice(&figures);
        self.made.push(Entry::Reading(reading));
    }

    /// Hear an acknowledgement of the present life.
    fn hear(&mut self, [life, next]: [u32; 2]) {
        if life == self.life {
            self.heard = self.heard.max(self.began + next as usize);
        }
    }
}

/// One sending: the oldest entry that a node has not heard of, or one of any age that the link repeats.
fn send(gateway: &mut Gateway, nodes: &mut [Node], dice: &mut Dice) {
    let node = &mut nodes[dice.place(PLOTS)];
    let place = if dice.once_in(4) { dice.place(node.heard + 1) } else { node.heard };
    let Some(entry) = node.made.get(place).copied() else { return };
    if dice.once_in(4) {
        return;
    }
    let acknowledgement = gateway.take(&entry, dice);
    if let Some(heard) = acknowledgement.filter(|_| !dice.once_in(4)) {
        node.hear(heard);
    }
}

/// A site's first sheet: empty, or one of an earlier year that soon is full.
fn first_sheet(dice: &mut Dice) -> Sheet {
    if dice.once_in(2) { [0; SHEET] } else { [FULL - dice.within(0, 60); SHEET] }
}

/// Keep a site to its end: its gateway, and whether the disk has each entry just once.
fn keep(order: Order, dice: &mut Dice) -> (Gateway, bool) {
    let first = first_sheet(dice);
    let mut gateway = Gateway::first(order, first);
    let mut nodes: Vec<Node> = (0..PLOTS).map(|_| Node::default()).collect();
    for day in 1..=DAYS {
        if dice.once_in(10) {
            gateway.change_share(dice.within(5, 20) as u32);
        }
        nodes.iter_mut().enumerate().for_each(|(plot, node)| node.make(plot, dice));
        (0..8).for_each(|_| send(&mut gateway, &mut nodes, dice));
        if day % PERIOD == 0 {
            (0..PLOTS).for_each(|plot| gateway.collect(plot, dice));
        }
    }
    for _ in 0..SENDINGS {
        if nodes.iter().all(|node| node.heard == node.made.len()) {
            break;
        }
        send(&mut gateway, &mut nodes, dice);
    }
    let disk = &gateway.disk;
    let sound = whole(disk, &nodes) && summed(first, disk) && gathered(disk);
    (gateway, sound)
}

/// Collect again what was collected at a place among the answers: does the same come?
fn collected_again(disk: &Disk, place: usize, rows: &mut [u32]) -> bool {
    let mut here = disk.collected.iter().filter(|(at, _, _)| *at == place);
    here.all(|(_, plot, sums)| collect(disk.share_at(place), rows, *plot) == Ok(*sums))
}

/// Has the disk each entry once, in its order, and are its rows, amounts and collections those of the entries?
fn whole(disk: &Disk, nodes: &[Node]) -> bool {
    let mut rows = vec![0; ROW * PLOTS];
    let stepped = disk.book.iter().enumerate().all(|(place, (entry, amounts))| {
        collected_again(disk, place, &mut rows)
            && step(disk.share_at(place), &mut rows, entry) == Ok(*amounts)
    });
    let stepped = stepped && collected_again(disk, disk.book.len(), &mut rows);
    let made = nodes.iter().enumerate().all(|(plot, node)| {
        let of_plot = disk.book.iter().filter(|(entry, _)| entry.plot() == plot);
        of_plot.map(|(entry, _)| entry).eq(&node.made)
    });
    stepped && made && rows == disk.site.rows
}

/// Is what was collected of each plot, with what its row still holds, the runoff and drain of its answers?
fn gathered(disk: &Disk) -> bool {
    let mut sums = [[0; SUMS]; PLOTS];
    for (entry, amounts) in &disk.book {
        let sums = &mut sums[entry.plot()];
        *sums = [sums[0] + amounts[1], sums[1] + amounts[5]];
    }
    for (_, plot, [runoff, drainage]) in &disk.collected {
        let sums = &mut sums[*plot];
        *sums = [sums[0] - *runoff as i64, sums[1] - *drainage as i64];
    }
    let held = |two: &[u32]| (i64::from(two[0]) << 32) + i64::from(two[1]);
    let rows = disk.site.rows.chunks(ROW);
    rows.zip(sums).all(|(row, sums)| [held(&row[32..34]), held(&row[34..])] == sums)
}

/// Are all sheets together, those put away and the present one, the first one and the answers, and was each full?
fn summed(mut sums: Sheet, disk: &Disk) -> bool {
    for (_, amounts) in &disk.book {
        sums[0] += 1;
        sums[1..].iter_mut().zip(amounts).for_each(|(sum, amount)| *sum += amount);
    }
    for sheet in disk.full.iter().chain([&disk.site.sheet]) {
        sums.iter_mut().zip(sheet).for_each(|(sum, number)| *sum -= number);
    }
    sums == [0; SHEET] && disk.full.iter().all(|sheet| sheet[0] == FULL)
}

fn main() -> ExitCode {
    let words: Option<Vec<u64>> = std::env::args().skip(1).map(|word| word.parse().ok()).collect();
    let Some([seed, sites]) = words.as_deref() else {
        eprintln!("usage: storing SEED SITES");
        return ExitCode::from(2);
    };
    let run = |order| -> Vec<(Gateway, bool)> {
        let dice = &mut Dice::new(*seed);
        (0..*sites).map(|_| keep(order, dice)).collect()
    };
    let unsound = |kept: &[(Gateway, bool)]| kept.iter().filter(|(_, sound)| !sound).count();
    let right = run(Order::AsWritten);
    let all = |what: fn(&Gateway) -> usize| -> usize {
        right.iter().map(|(gateway, _)| what(gateway)).sum()
    };
    let (cuts, lost) = (all(|gateway| gateway.mishaps.cuts), all(|gateway| gateway.mishaps.lost));
    let (durable, full) =
        (all(|gateway| gateway.mishaps.durable), all(|gateway| gateway.disk.full.len()));
    let (entries, shares) =
        (*sites as usize * PLOTS * DAYS, all(|gateway| gateway.disk.shares.len()));
    let collected = all(|gateway| gateway.disk.collected.len());
    println!("storing: {sites} sites, {entries} readings and voids, {shares} other shares");
    println!("storing: {collected} collections");
    println!("storing: {full} full sheets, {cuts} cuts");
    println!("storing: {lost} stores failed with nothing durable, {durable} with all of it");
    println!("storing: {} sites lost or doubled an entry or a collection", unsound(&right));
    let met = [cuts, lost, durable, full, shares, collected];
    let mut sound = unsound(&right) == 0 && met.iter().all(|times| *times > 0);
    for (order, name) in WRONG {
        let found = unsound(&run(order));
        println!("storing: wrong order, {name}: {found} sites did");
        sound &= found > 0;
    }
    if sound { ExitCode::SUCCESS } else { ExitCode::FAILURE }
}
