//! The gateway's end of the link, for the hosts here: a site, an entry that reaches it, and a plot's acknowledgement.

use crate::outbox::{Entry, VOID};
use crate::waterbook::{self, Answer, Card, NOTICE, READING, ROW, Refusal, SOIL, USUAL_SHARE};

/// A site: its card, soil numbers and stored rows.
#[derive(Clone)]
pub struct Site {
    card: Card,
    soil: Vec<i64>,
    rows: Vec<u32>,
}

impl Site {
    /// A site of so many plots on its first day, with two delays.
    pub fn first(plots: u32) -> Result<Site, Refusal> {
        let card = waterbook::card(plots, &[1_000_000, 2_000_000], USUAL_SHARE)?;
        let plot: [i64; SOIL] = [10_000_000, 1_500_000, 200, 100_000, 80];
        let (soil, rows) = (plot.repeat(plots as usize), vec![u32::MAX; ROW * plots as usize]);
        let mut site = Site { card, soil, rows };
        site.clear().map(|()| site)
    }

    /// Clear all rows.
    pub fn clear(&mut self) -> Result<(), Refusal> {
        waterbook::clear(&self.card, &mut self.rows)
    }

    /// One entry of a node: behind its kind stand the numbers of a reading or of a void's notice.
    pub fn enter(&mut self, entry: &Entry) -> Answer {
        let (mut reading, mut notice) = ([0; READING], [0; NOTICE]);
        reading.copy_from_slice(&entry[1..]);
        notice.copy_from_slice(&entry[1..=NOTICE]);
        if entry[0] == VOID {
            waterbook::void(&self.card, &self.soil, &mut self.rows, &notice)
        } else {
            waterbook::step(&self.card, &self.soil, &mut self.rows, &reading)
        }
    }

    /// A plot's acknowledgement: life and next count of its row.
    pub fn acknowledgement(&self, plot: u32) -> [u32; 2] {
        let start = ROW * plot as usize;
        [self.rows[start], self.rows[start + 1]]
    }
}
