//! A node and its gateway over a bad link, an event a line; docs/NEWCOMERS.md shows what this prints. What is lost and
//! what comes late is set down here, all else is what the two proved libraries answer.

#[allow(dead_code)]
#[path = "../outbox.rs"]
mod outbox;
#[allow(dead_code)]
mod site;
#[allow(dead_code)]
#[path = "../../gateway/waterbook.rs"]
mod waterbook;

use outbox::{Entry, Outbox, READING};
use site::Site;
use std::error::Error;
use waterbook::{Answer, Refusal};

/// What becomes of something that is sent.
#[derive(PartialEq)]
enum Fate {
    Lost,
    Late,
    Heard,
}

/// The node of plot 0, the gateway's site, and the acknowledgement that is late.
struct Talk {
    outbox: Outbox,
    site: Site,
    late: [u32; 2],
}

/// An entry's kind, life and count in words.
fn words(entry: &Entry) -> String {
    let kind = if entry[0] == READING { "reading" } else { "void" };
    format!("{kind} life={} count={}", entry[2], entry[3])
}

/// What the gateway answers, in words.
fn answer_words(answer: Answer) -> String {
    match answer {
        Ok(_) => "accepted".to_string(),
        Err(Refusal::Old) => "refused with 6, old".to_string(),
        Err(Refusal::BadReading) => "refused with 8, out of range".to_string(),
        Err(refusal) => format!("refused with {}", refusal.number()),
    }
}

impl Talk {
    fn first() -> Result<Talk, Box<dyn Error>> {
        Ok(Talk { outbox: outbox::fresh(0)?, site: Site::first(1)?, late: [0; 2] })
    }

    fn holds(&self) -> u32 {
        self.outbox[3]
    }

    /// The node makes a day's reading, with the outbox's cell, life and next count.
    fn make(&mut self, rain: u32) -> Result<(), outbox::Refusal> {
        let mut entry = [READING, 0, 0, 0, rain, 0, 0, 2_000, 5_000, 2, 8.75f32.to_bits()];
        entry[1..4].copy_from_slice(&self.outbox[..3]);
        outbox::add(&mut self.outbox, &entry)?;
        println!("node     makes {} with rain={rain}, holds {}", words(&entry), self.holds());
        Ok(())
    }

    /// The node sends what it offers.
    fn send(&mut self, fate: Fate) -> Result<(), outbox::Refusal> {
        let Some(entry) = outbox::offer(&self.outbox)? else {
            println!("node     has nothing to send");
            return Ok(());
        };
        let became = match fate {
            Fate::Heard => answer_words(self.site.enter(&entry)),
            Fate::Lost => "lost".to_string(),
            Fate::Late => "late".to_string(),
        };
        println!("node     sends {}: {became}", words(&entry));
        Ok(())
    }

    /// The gateway acknowledges the life and next count of its row.
    fn acknowledge(&mut self, fate: Fate) -> Result<(), outbox::Refusal> {
        let [life, next] = self.site.acknowledgement(0);
        let became = match fate {
            Fate::Heard => self.hear([life, next])?,
            Fate::Lost => "lost".to_string(),
            Fate::Late => "late".to_string(),
        };
        if fate == Fate::Late {
            self.late = [life, next];
        }
        println!("gateway  acknowledges life={life} next={next}: {became}");
        Ok(())
    }

    /// The late acknowledgement is heard at last.
    fn bring_late(&mut self) -> Result<(), outbox::Refusal> {
        let became = self.hear(self.late)?;
        let [life, next] = self.late;
        println!("link     brings the late one, life={life} next={next}: {became}");
        Ok(())
    }

    /// The node hears an acknowledgement.
    fn hear(&mut self, [life, next]: [u32; 2]) -> Result<String, outbox::Refusal> {
        outbox::acknowledge(&mut self.outbox, life, next)?;
        Ok(format!("heard, the node holds {}", self.holds()))
    }

    /// The node puts a void in place of its oldest entry.
    fn replace(&mut self) -> Result<(), outbox::Refusal> {
        outbox::replace(&mut self.outbox)?;
        let oldest = outbox::offer(&self.outbox)?.unwrap_or_default();
        println!("node     puts {} in its place, holds {}", words(&oldest), self.holds());
        Ok(())
    }

    /// The node gets a fresh battery.
    fn swap(&mut self) -> Result<(), outbox::Refusal> {
        let (life, held) = (self.outbox[1] + 1, self.holds());
        outbox::swap(&mut self.outbox, life)?;
        println!("node     gets a fresh battery, life={life}: held {held}, holds {}", self.holds());
        Ok(())
    }
}

/// A reading lost, heard and heard again; a frozen gauge; a fresh battery.
fn main() -> Result<(), Box<dyn Error>> {
    let mut talk = Talk::first()?;
    talk.make(50_800)?;
    talk.send(Fate::Lost)?;
    talk.send(Fate::Heard)?;
    talk.acknowledge(Fate::Lost)?;
    talk.send(Fate::Heard)?;
    talk.acknowledge(Fate::Heard)?;
    talk.send(Fate::Heard)?;
    talk.make(u32::MAX)?;
    talk.make(3_000)?;
    talk.send(Fate::Heard)?;
    talk.replace()?;
    talk.send(Fate::Heard)?;
    talk.acknowledge(Fate::Late)?;
    talk.send(Fate::Heard)?;
    talk.acknowledge(Fate::Heard)?;
    talk.swap()?;
    talk.make(12_700)?;
    talk.make(0)?;
    talk.bring_late()?;
    talk.send(Fate::Heard)?;
    talk.acknowledge(Fate::Heard)?;
    talk.send(Fate::Heard)?;
    talk.acknowledge(Fate::Heard)?;
    Ok(())
}
