//! The link: a node's outbox and the gateway's row, while entries and acknowledgements are lost, repeated and reordered.

use super::{card, example, PLOT};
use crate::made::dice::Dice;
use crate::numbers::{Card, Entry, Reading, ROW};
use crate::outbox::Outbox;
use crate::step::enter;
use std::collections::BTreeMap;

/// A node, its gateway, and all that was ever sent between them.
struct Link {
    outbox: Outbox,
    site: Card,
    rows: [u32; ROW],
    entries: Vec<Entry>,
    acknowledgements: Vec<(u32, u32)>,
    /// What the node made in each life: what may be accepted at each count.
    made: BTreeMap<u32, Vec<Vec<Entry>>>,
    /// What the gateway accepted in each life.
    accepted: BTreeMap<u32, Vec<Entry>>,
    /// How many acknowledgements removed entries.
    removals: u64,
}

/// Which of so many things sent the link brings now: a late one mostly, or any once more.
fn brought(dice: &mut Dice, sent: usize) -> usize {
    let (late, any) = (sent.saturating_sub(1 + dice.place(4)), dice.place(sent));
    dice.pick(&[late, late, any])
}

impl Link {
    /// A fresh outbox and a cleared row.
    fn fresh() -> Link {
        Link {
            outbox: Outbox::fresh(0).unwrap(),
            site: card(1, &[]),
            rows: [0; ROW],
            entries: Vec::new(),
            acknowledgements: Vec::new(),
            made: BTreeMap::new(),
            accepted: BTreeMap::new(),
            removals: 0,
        }
    }

    /// The node makes a void, or a reading that the gateway may refuse.
    fn make(&mut self, dice: &mut Dice) {
        let turn = self.outbox.turn(self.outbox.next);
        let (amc, rain) = (dice.pick(&[1, 2, 3, 9]), dice.below(1000) as u32);
        let reading = Reading { life: turn.life, count: turn.count, rain, amc, ..example() };
        let entry = if dice.once_in(9) { Entry::Void(turn) } else { Entry::Reading(reading) };
        if self.outbox.add(&entry).is_ok() {
            self.made.entry(turn.life).or_default().push(vec![entry]);
        }
    }

    /// The node puts a void in place of its oldest entry.
    fn replace(&mut self) {
        if self.outbox.replace() == Ok(true) {
            let void = self.outbox.offer().unwrap().unwrap();
            let life = self.made.get_mut(&self.outbox.life).unwrap();
            life[self.outbox.oldest() as usize].push(void);
        }
    }

    /// The link brings the gateway something that was once sent; the gateway tells where it stands.
    fn arrive(&mut self, dice: &mut Dice) {
        if self.entries.is_empty() {
            return;
        }
        let entry = self.entries[brought(dice, self.entries.len())];
        if enter(&self.site, &PLOT, &mut self.rows, &entry).0 == 0 {
            self.accepted.entry(entry.turn().life).or_default().push(entry);
        }
        self.acknowledgements.push((self.rows[0], self.rows[1]));
    }

    /// The link brings the node something that the gateway once told.
    fn hear(&mut self, dice: &mut Dice) {
        if self.acknowledgements.is_empty() {
            return;
        }
        let (life, count) = self.acknowledgements[brought(dice, self.acknowledgements.len())];
        let before = self.outbox.held();
        self.outbox.acknowledge(life, count).unwrap();
        if self.outbox.held() < before {
            self.removals += 1;
            assert!(self.outbox.unheard.iter().all(|entry| entry.turn().count >= count));
        }
    }

    /// What was accepted in each life is a first part of what was made in it.
    fn holds(&self) {
        for (life, accepted) in &self.accepted {
            let made = &self.made[life];
            assert!(accepted.len() <= made.len());
            assert!(accepted.iter().zip(made).all(|(entry, may)| may.contains(entry)));
        }
        assert!(self.outbox.in_form());
    }
}

#[test]
fn accepted_entries_are_a_first_part_of_those_made() {
    let (mut accepted, mut removals, mut lives) = (0, 0, 0);
    for seed in 0..60 {
        let dice = &mut Dice::new(seed);
        let mut link = Link::fresh();
        for _ in 0..800 {
            match dice.below(180) {
                0 => link.outbox.swap(link.outbox.life + 1 + dice.below(3) as u32).unwrap(),
                1..=8 => link.replace(),
                9..=48 => link.make(dice),
                49..=93 => link.entries.extend(link.outbox.offer().unwrap()),
                94..=138 => link.arrive(dice),
                _ => link.hear(dice),
            }
            link.holds();
        }
        accepted += link.accepted.values().map(Vec::len).sum::<usize>();
        removals += link.removals;
        lives += link.accepted.len();
    }
    assert!(accepted > 1000 && removals > 500 && lives > 120, "{accepted} {removals} {lives}");
}
