//! How often each number, each branch of the rules, each class of head and each side of the outbox's calls was met.

use std::collections::BTreeMap;

/// Counts under a heading and a name.
#[derive(Default)]
pub struct Tally {
    counts: BTreeMap<(&'static str, &'static str), u64>,
    numbers: BTreeMap<(&'static str, u32), u64>,
    pub steps: u64,
    pub collections: u64,
    pub moves: u64,
    pub calls: u64,
    pub texts: u64,
    pub journals: u64,
    pub runs: u64,
}

impl Tally {
    /// Meet a thing once more.
    pub fn meet(&mut self, heading: &'static str, name: &'static str) {
        *self.counts.entry((heading, name)).or_insert(0) += 1;
    }

    /// Meet a call's number once more.
    pub fn number(&mut self, call: &'static str, number: u32) {
        *self.numbers.entry((call, number)).or_insert(0) += 1;
    }

    /// Print all counts, a line per heading.
    pub fn print(&self) {
        let Tally { steps, collections, moves, calls, texts, journals, runs, .. } = self;
        println!(
            "compared: {steps} steps and voids, {collections} collections, {moves} moves, {texts} texts, \
             {journals} journals, {runs} runs of waterbook, {calls} calls on outboxes"
        );
        for call in CALLS {
            let met = self.numbers.iter().filter(|(key, _)| key.0 == call.0);
            let words: Vec<String> = met.map(|(key, n)| format!("{}: {n}", key.1)).collect();
            println!("numbers of {}: {}", call.0, words.join(", "));
        }
        let mut last = "";
        for (heading, names) in crate::MUST {
            if *heading != last {
                println!("{heading}:");
            }
            last = heading;
            for name in *names {
                println!("  {:>9}  {name}", self.count(heading, name));
            }
        }
    }

    /// How often a thing was met.
    fn count(&self, heading: &'static str, name: &'static str) -> u64 {
        self.counts.get(&(heading, name)).copied().unwrap_or(0)
    }

    /// What must be met and was not; and what was met under a name that no list has.
    pub fn missing(&self) -> Vec<String> {
        let mut missing = Vec::new();
        for (call, numbers) in CALLS {
            for number in *numbers {
                if !self.numbers.contains_key(&(call, *number)) {
                    missing.push(format!("number {number} of {call}"));
                }
            }
        }
        for (heading, names) in crate::MUST {
            for name in *names {
                if self.count(heading, name) == 0 {
                    missing.push(format!("{heading}: {name}"));
                }
            }
        }
        let listed = |key: &(&str, &str)| {
            crate::MUST.iter().any(|(heading, names)| *heading == key.0 && names.contains(&key.1))
        };
        let strange = self.counts.keys().filter(|key| !listed(key));
        missing.extend(strange.map(|key| format!("a list that has {}: {}", key.0, key.1)));
        missing
    }
}

/// Each call with the numbers that it must give.
const CALLS: &[(&str, &[u32])] = &[
    ("step", &[0, 1, 2, 3, 4, 5, 6, 7, 8, 9, 10, 15, 17, 255]),
    ("void", &[0, 1, 2, 3, 4, 5, 6, 7, 8, 255]),
    ("clear", &[0, 1, 2, 255]),
    ("collect", &[0, 1, 2, 3, 5, 255]),
    ("grow", &[0, 1, 2, 5, 255]),
    ("shrink", &[0, 1, 2, 5, 16, 255]),
    ("add", &[0, 11, 255]),
    ("read_card", &[0, 2, 12, 255]),
    ("write_card", &[0, 2, 12, 255]),
    ("read_reading", &[0, 12, 255]),
    ("write_reading", &[0, 12, 255]),
    ("read_void", &[0, 12, 255]),
    ("write_void", &[0, 12, 255]),
    ("write_answer", &[0, 12, 255]),
    ("write_sheet", &[0, 12, 255]),
    ("answer lines", &[0, 1, 2, 3, 4, 5, 6, 7, 8, 9, 10, 15, 17]),
    ("waterbook", &[0, 1, 3, 4, 6, 7, 8, 9, 10, 12, 17]),
    ("outbox_fresh", &[0, 14, 255]),
    ("outbox_offer", &[0, 23, 254, 255]),
    ("outbox_add", &[0, 13, 14, 23, 255]),
    ("outbox_replace", &[0, 23, 254, 255]),
    ("outbox_acknowledge", &[0, 23, 255]),
    ("outbox_swap", &[0, 14, 23, 255]),
];
