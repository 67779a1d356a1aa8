//! What must be so at each moment, and after each acknowledgement: request [4], looked at from outside.

use crate::outbox::{self, Entry, Outbox};
use crate::world::{Ack, Check, World, held, odd, so, void_of};
use std::collections::BTreeMap;

/// Have two entries the same life and count?
fn same_turn(one: &Entry, other: &Entry) -> bool {
    one[2..4] == other[2..4]
}

impl World {
    /// All that must be so at each moment.
    pub fn look(&self) -> Check {
        self.first_parts()?;
        self.nothing_lost()?;
        self.way_on()
    }

    /// Is this what the node made at its life and count, or the void that was put there?
    fn in_place(&self, entry: &Entry) -> bool {
        let made = self.made.get(&entry[2]).and_then(|places| places.get(entry[3] as usize));
        made.is_some_and(|made| {
            *entry == made.entry || made.voided && *entry == void_of(&made.entry)
        })
    }

    /// The accepted entries of each life are, place by place, a first part of what was made in it.
    fn first_parts(&self) -> Check {
        let mut places: BTreeMap<u32, u32> = BTreeMap::new();
        for entry in &self.accepted {
            let place = places.entry(entry[2]).or_default();
            so(entry[3] == *place && self.in_place(entry), "accepted is a first part of made")?;
            *place += 1;
        }
        Ok(())
    }

    /// Each place made is accepted, or held as it was made or as its void, or was emptied by a swap.
    fn nothing_lost(&self) -> Check {
        let held = held(&self.outbox);
        so(held.iter().all(|entry| self.in_place(entry)), "what is held was made")?;
        for (life, places) in &self.made {
            let accepted = self.accepted.iter().filter(|entry| entry[2] == *life).count();
            for made in &places[accepted.min(places.len())..] {
                let kept = held.iter().any(|entry| same_turn(entry, &made.entry));
                so(kept || made.emptied, "what is not accepted is held, or a swap emptied it")?;
            }
        }
        Ok(())
    }

    /// The oldest is due, and its void would be accepted; or the row's acknowledgement removes it.
    fn way_on(&self) -> Check {
        let mut copy = self.outbox;
        let Some(oldest) = outbox::offer(&copy).map_err(odd)? else { return Ok(()) };
        let [life, next] = self.row();
        if oldest[2..4] == [life, next] || oldest[2] > life && oldest[3] == 0 {
            outbox::replace(&mut copy).map_err(odd)?;
            let void = outbox::offer(&copy).map_err(odd)?;
            so(void == Some(void_of(&oldest)), "a void takes its place")?;
            let answer = self.site.clone().enter(&void_of(&oldest));
            return so(answer.is_ok(), "the void of what is due is accepted");
        }
        outbox::acknowledge(&mut copy, life, next).map_err(odd)?;
        let after = outbox::offer(&copy).map_err(odd)?;
        let gone = after.is_none_or(|after| !same_turn(&after, &oldest));
        so(gone, "the oldest is due, or the row's acknowledgement removes it")
    }

    /// What an acknowledgement removed had been accepted when it was sent, and what it left had not.
    pub fn learned(&mut self, ack: &Ack, before: &Outbox) -> Check {
        let (was, left) = (held(before), held(&self.outbox));
        so(was.ends_with(&left), "the newest are left")?;
        let removed = &was[..was.len() - left.len()];
        let had = |entry: &Entry| {
            ack.accepted.iter().any(|had| same_turn(had, entry) && self.in_place(had))
        };
        so(removed.iter().all(had), "what is removed had been accepted, it or its void")?;
        let none = removed.is_empty();
        so(none || !left.iter().any(had), "what is left had not been accepted")?;
        so(!none || self.outbox == *before, "nothing removed is nothing changed")?;
        so(self.frames || removed.len() < 2, "what is sent one by one is heard one by one")?;
        let late = was.iter().all(|entry| ack.next <= entry[3]);
        self.meet(match removed.len() {
            0 if ack.life != before[1] => "acknowledgements that removed nothing, of another life",
            0 if late => "acknowledgements that removed nothing, too old",
            0 => return so(false, "an acknowledgement of counts that are held removes them"),
            1 => "acknowledgements that removed one entry",
            _ => "acknowledgements that removed several",
        });
        self.ahead()
    }

    /// Over a link that invents nothing no acknowledgement is ahead of the node; on a copy one changes nothing.
    fn ahead(&mut self) -> Check {
        let (mut copy, [life, next]) = (self.outbox, [self.outbox[1], self.outbox[2]]);
        outbox::acknowledge(&mut copy, life, next + 1).map_err(odd)?;
        self.meet("acknowledgements ahead, on a copy");
        so(copy == self.outbox, "an acknowledgement ahead changes nothing")
    }
}
