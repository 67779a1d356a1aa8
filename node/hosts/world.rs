//! A plot's node, the link and the gateway, event by event, and the histories that are kept of them by what the calls
//! answered.

use crate::outbox::{self, BOX, ENTRY, Entry, HELD, Outbox, VOID};
use crate::site::Site;
use crate::waterbook::{Answer, Refusal};
use second::made::dice::Dice;
use std::collections::BTreeMap;

/// The most entries that a node sends together.
const FRAME: usize = 4;

/// What can be wrong in a world.
#[derive(Clone, Copy, PartialEq)]
pub enum Wrong {
    Nothing,
    EntryInvented,
    AcknowledgementInvented,
    RowClearedAgain,
    LifeUsedAgain,
    OtherLifeObeyed,
    NamedCountRemoved,
    RefusedAcknowledged,
    OldestDropped,
}

/// How often each thing was met.
pub type Tally = BTreeMap<&'static str, u64>;

/// What a check says: in words, what is not so.
pub type Check = Result<(), String>;

/// What the outbox took: the entry, whether a void was put in its place, and whether a swap emptied that.
pub struct Made {
    pub entry: Entry,
    pub voided: bool,
    pub emptied: bool,
}

/// What is on the link: an entry, and how often it was heard.
pub struct Packet {
    entry: Entry,
    pub heard: u64,
}

/// An acknowledgement: the row's life and next count, a copy of what had been accepted when it was sent, and how often
/// it was heard.
#[derive(Clone)]
pub struct Ack {
    pub life: u32,
    pub next: u32,
    pub accepted: Vec<Entry>,
    pub heard: u64,
}

/// A plot's node, the link, the gateway's site, and what was seen of them.
pub struct World {
    wrong: Wrong,
    /// The node sends its oldest entries together, and not one by one as they are offered.
    pub frames: bool,
    pub outbox: Outbox,
    pub site: Site,
    pub packets: Vec<Packet>,
    pub acks: Vec<Ack>,
    /// What the node made, by life and place.
    pub made: BTreeMap<u32, Vec<Made>>,
    /// What the gateway accepted of the plot, in its order.
    pub accepted: Vec<Entry>,
    pub tally: Tally,
}

/// It holds, or the words for what is not so.
pub fn so(holds: bool, words: &str) -> Check {
    if holds { Ok(()) } else { Err(format!("not so: {words}")) }
}

/// Words for a refusal that must not come.
pub fn odd(refusal: outbox::Refusal) -> String {
    format!("the outbox answers {}: {refusal}", refusal.number())
}

/// The void that takes an entry's place.
pub fn void_of(entry: &Entry) -> Entry {
    let mut void = [0; ENTRY];
    void[0] = VOID;
    void[1..4].copy_from_slice(&entry[1..4]);
    void
}

/// The entries that an outbox holds, the oldest first.
pub fn held(outbox: &Outbox) -> Vec<Entry> {
    let places = outbox[4..].chunks_exact(ENTRY).take(outbox[3] as usize);
    places.map(|place| std::array::from_fn(|i| place[i])).collect()
}

/// A reading's figures: in range mostly, else such that the gateway answers 8, 17, 9 or 10.
fn figures(dice: &mut Dice) -> [u32; 7] {
    let head = dice.pick(&[8.75f32, 7.5, 9.99, 10.5]).to_bits();
    let mut figures = [dice.below(60_000) as u32, 0, 500, 2_000, 5_000, 2, head];
    match dice.below(24) {
        0 => figures[0] = u32::MAX,
        1 => figures[3] = 5_001,
        2 => figures[6] = f32::NAN.to_bits(),
        3 => figures[6] = 0x7149_f2ca,
        4 => figures[0] = 940_000,
        _ => {}
    }
    figures
}

/// An entry with these cell, life and count: a reading, or a void now and then.
fn any_entry(turn: &[u32], dice: &mut Dice) -> Entry {
    let mut entry = [0; ENTRY];
    entry[1..4].copy_from_slice(turn);
    if dice.once_in(8) {
        entry[0] = VOID;
    } else {
        entry[4..].copy_from_slice(&figures(dice));
    }
    entry
}

/// A place in a list that is not empty: one of the last mostly, else any.
fn any_place(things: usize, dice: &mut Dice) -> usize {
    let last = if dice.once_in(3) { things } else { FRAME.min(things) };
    things - 1 - dice.place(last)
}

/// The number with which an outbox should refuse an entry, and its name; none where it takes it.
fn refusal_of(outbox: &Outbox, entry: &Entry) -> Option<(u32, &'static str)> {
    if entry[1..4] != outbox[..3] {
        Some((14, "refused with 14"))
    } else {
        (outbox[3] == HELD as u32).then_some((13, "refused with 13"))
    }
}

impl World {
    /// A site on its first day, with a fresh outbox for one of its plots.
    pub fn first(wrong: Wrong, dice: &mut Dice) -> Result<World, String> {
        let plots = dice.within(2, 6) as u32;
        let site = Site::first(plots).map_err(|refusal| refusal.to_string())?;
        let outbox = outbox::fresh(dice.below(plots.into()) as u32).map_err(odd)?;
        so(outbox[1..] == [0; BOX - 1], "a fresh outbox is empty and in life 0")?;
        let (packets, acks, made, accepted) = Default::default();
        let (frames, tally) = (dice.once_in(3), Tally::from([("lives", 1)]));
        Ok(World { wrong, frames, outbox, site, packets, acks, made, accepted, tally })
    }

    pub fn meet(&mut self, name: &'static str) {
        *self.tally.entry(name).or_default() += 1;
    }

    /// Is the world wrong in this, at this moment?
    fn errs(&self, wrong: Wrong, dice: &mut Dice) -> bool {
        self.wrong == wrong && dice.once_in(4)
    }

    /// Life and next count of the plot's row.
    pub fn row(&self) -> [u32; 2] {
        self.site.acknowledgement(self.outbox[0])
    }

    /// What the node made at an entry's life and count.
    fn made_at(&mut self, entry: &Entry) -> Option<&mut Made> {
        self.made.get_mut(&entry[2])?.get_mut(entry[3] as usize)
    }

    // ---- the node ----

    /// The node makes an entry; one out of turn is refused, and a full outbox takes none.
    pub fn add(&mut self, dice: &mut Dice) -> Check {
        let mut entry = any_entry(&self.outbox[..3], dice);
        if dice.once_in(20) {
            entry[1 + dice.place(3)] += 1;
        }
        if self.outbox[3] == HELD as u32 && self.errs(Wrong::OldestDropped, dice) {
            let [life, oldest] = [self.outbox[1], self.outbox[2] - self.outbox[3]];
            outbox::acknowledge(&mut self.outbox, life, oldest + 1).map_err(odd)?;
        }
        let before = self.outbox;
        let answered = outbox::add(&mut self.outbox, &entry).map_err(|refusal| refusal.number());
        match refusal_of(&before, &entry) {
            None if answered.is_ok() => {
                let made = Made { entry, voided: false, emptied: false };
                self.made.entry(entry[2]).or_default().push(made);
                Ok(())
            }
            Some((number, name)) if answered == Err(number) => {
                self.meet(name);
                so(self.outbox == before, "a refused entry changes nothing")
            }
            due => Err(format!("the outbox answers {answered:?} to an entry, and not {due:?}")),
        }
    }

    /// The node sends what it offers, or that and what it holds behind it.
    pub fn send(&mut self) -> Check {
        let held = held(&self.outbox);
        let offered = outbox::offer(&self.outbox).map_err(odd)?;
        let sent = held.iter().take(if self.frames { FRAME } else { 1 });
        self.packets.extend(sent.map(|entry| Packet { entry: *entry, heard: 0 }));
        so(offered.as_ref() == held.first(), "the oldest is offered, if there is one")
    }

    /// The node puts a void in place of its oldest entry.
    pub fn replace(&mut self) -> Check {
        let mut held_before = held(&self.outbox);
        let replaced = outbox::replace(&mut self.outbox).map_err(odd)?;
        so(replaced == !held_before.is_empty(), "there is one to replace, or it is empty")?;
        if let Some(oldest) = held_before.first_mut() {
            if let Some(made) = self.made_at(oldest) {
                made.voided = true;
            }
            *oldest = void_of(oldest);
        }
        so(held(&self.outbox) == held_before, "a void takes the oldest's place, the others stay")
    }

    /// The node is told a life that was used, or one before it.
    fn swap_back(&mut self, dice: &mut Dice) -> Check {
        let (mut copy, life) = (self.outbox, dice.below(u64::from(self.outbox[1]) + 1) as u32);
        let answered = outbox::swap(&mut copy, life).map_err(|refusal| refusal.number());
        self.meet("refused with 14");
        so(answered == Err(14) && copy == self.outbox, "a life is not used again")
    }

    /// The node gets a fresh battery.
    pub fn swap(&mut self, dice: &mut Dice) -> Check {
        self.swap_back(dice)?;
        let (life, before) = (self.outbox[1], held(&self.outbox));
        for entry in &before {
            if let Some(made) = self.made_at(entry) {
                made.emptied = true;
            }
        }
        if self.errs(Wrong::LifeUsedAgain, dice) {
            self.outbox = outbox::fresh(self.outbox[0]).map_err(odd)?;
            return Ok(());
        }
        let higher = life + 1 + dice.pick(&[0, 0, 0, 1, 40]);
        outbox::swap(&mut self.outbox, higher).map_err(odd)?;
        self.meet("lives");
        if !before.is_empty() {
            self.meet("swaps that emptied");
        }
        so(self.outbox[1..4] == [higher, 0, 0], "a higher life starts empty, at count 0")
    }

    /// An acknowledgement is heard: any that was sent, at any time.
    pub fn learn(&mut self, dice: &mut Dice) -> Check {
        if self.acks.is_empty() {
            return Ok(());
        }
        let place = any_place(self.acks.len(), dice);
        if self.acks[place].heard > 0 {
            self.meet("repeats heard by the node");
        }
        self.acks[place].heard += 1;
        let (ack, before) = (self.acks[place].clone(), self.outbox);
        let [mut life, mut next] = [ack.life, ack.next];
        if self.errs(Wrong::OtherLifeObeyed, dice) {
            life = before[1];
        } else if self.errs(Wrong::NamedCountRemoved, dice) {
            next += 1;
        } else if self.errs(Wrong::AcknowledgementInvented, dice) {
            [life, next] = [before[1], before[2]];
        }
        outbox::acknowledge(&mut self.outbox, life, next).map_err(odd)?;
        self.learned(&ack, &before)
    }

    // ---- the gateway ----

    /// A packet is heard by the gateway: any that was sent, at any time.
    pub fn hear(&mut self, dice: &mut Dice) -> Check {
        if self.packets.is_empty() {
            return Ok(());
        }
        let place = any_place(self.packets.len(), dice);
        let mut entry = self.packets[place].entry;
        if self.packets[place].heard > 0 {
            self.meet("repeats heard by the gateway");
        }
        self.packets[place].heard += 1;
        if self.errs(Wrong::EntryInvented, dice) {
            entry[dice.pick(&[2, 3])] += 1;
        }
        let life = self.row()[0];
        let answer = self.site.enter(&entry);
        self.answered(&entry, life, &answer)?;
        match answer {
            Ok(_) | Err(Refusal::Old) => self.tell(0),
            Err(_) if self.errs(Wrong::RefusedAcknowledged, dice) => self.tell(1),
            Err(_) => {}
        }
        Ok(())
    }

    /// What the gateway answered to an entry, when its row had this life, is noted.
    fn answered(&mut self, entry: &Entry, life: u32, answer: &Answer) -> Check {
        self.meet(match answer {
            Ok(_) if entry[0] != VOID => "readings accepted",
            Ok(_) => "voids accepted",
            Err(Refusal::Old) if entry[2] == life => "refused with 6, of the row's life",
            Err(Refusal::Old) => "refused with 6, of an earlier life",
            Err(Refusal::Gap) if self.frames => "refused with 7, sent before its turn",
            Err(Refusal::BadReading) => "refused with 8",
            Err(Refusal::JammedBucket) => "refused with 17",
            Err(Refusal::UnusableHead) => "refused with 9",
            Err(Refusal::InactiveHead) => "refused with 10",
            Err(refusal) => return Err(format!("the gateway answers {}", refusal.number())),
        });
        if answer.is_ok() {
            self.accepted.push(*entry);
            if entry[0] == VOID && self.made_at(entry).is_some_and(|made| made.entry[0] != VOID) {
                self.meet("voids accepted in place of a reading");
            }
        }
        Ok(())
    }

    /// The gateway sends the acknowledgement of its row; so many counts too high where the world is wrong.
    pub fn tell(&mut self, more: u32) {
        let ([life, next], accepted) = (self.row(), self.accepted.clone());
        self.acks.push(Ack { life, next: next + more, accepted, heard: 0 });
    }

    /// Another plot's entry, any at all, reaches the gateway.
    pub fn other(&mut self, dice: &mut Dice) -> Check {
        let turn = [dice.below(8) as u32, dice.below(3) as u32, dice.below(5) as u32];
        if turn[0] != self.outbox[0] {
            let _ = self.site.enter(&any_entry(&turn, dice));
            self.meet("calls of other plots");
        }
        if self.errs(Wrong::RowClearedAgain, dice) {
            self.site.clear().map_err(|refusal| refusal.to_string())?;
        }
        Ok(())
    }
}
