//! A node, a link and a gateway together: `node-link SEED RUNS` plays so many runs over both proved libraries. The link
//! loses, repeats and reorders, and invents nothing; the rows are cleared once, and each life is used once. After each
//! event the run is held to request [4]. Worlds that break a rule must be found out by the same run.

#[allow(dead_code)]
#[path = "../outbox.rs"]
mod outbox;
mod promises;
mod site;
#[allow(dead_code)]
#[path = "../../gateway/waterbook.rs"]
mod waterbook;
mod world;

use second::made::dice::Dice;
use std::process::ExitCode;
use world::{Check, Tally, World, Wrong};

/// Events of a run.
const EVENTS: usize = 300;

/// The wrong worlds by name.
const WRONG: [(Wrong, &str); 8] = [
    (Wrong::EntryInvented, "the link invents an entry"),
    (Wrong::AcknowledgementInvented, "the link invents an acknowledgement"),
    (Wrong::RowClearedAgain, "the rows are cleared again"),
    (Wrong::LifeUsedAgain, "a life is used again"),
    (Wrong::OtherLifeObeyed, "the node obeys another life's acknowledgement"),
    (Wrong::NamedCountRemoved, "the node removes the named count too"),
    (Wrong::RefusedAcknowledged, "the gateway acknowledges what it refuses"),
    (Wrong::OldestDropped, "the node drops its oldest for a new one"),
];

/// What must be met over all runs, each at least once.
const MUST: [&str; 24] = [
    "readings accepted",
    "voids accepted",
    "voids accepted in place of a reading",
    "refused with 6, of the row's life",
    "refused with 6, of an earlier life",
    "refused with 7, sent before its turn",
    "refused with 8",
    "refused with 17",
    "refused with 9",
    "refused with 10",
    "repeats heard by the gateway",
    "packets lost",
    "calls of other plots",
    "acknowledgements that removed one entry",
    "acknowledgements that removed several",
    "acknowledgements that removed nothing, of another life",
    "acknowledgements that removed nothing, too old",
    "acknowledgements ahead, on a copy",
    "repeats heard by the node",
    "acknowledgements lost",
    "refused with 13",
    "refused with 14",
    "swaps that emptied",
    "lives",
];

/// How often each event comes in a run: a day's entry, a sending, a replacement, a packet heard, an acknowledgement
/// sent unasked, one heard, a swap, another plot's call.
fn weather(dice: &mut Dice) -> [u64; 8] {
    let (days, link) = (dice.pick(&[6, 12, 30]), dice.pick(&[2, 10, 25]));
    let (swaps, unasked) = (dice.pick(&[0, 0, 1, 2]), dice.pick(&[0, 3]));
    [days, 15, dice.pick(&[1, 6]), link + 5, unasked, link, swaps, 5]
}

/// One event of a run.
fn happen(world: &mut World, weather: &[u64; 8], dice: &mut Dice) -> Check {
    let mut at = dice.below(weather.iter().sum());
    let comes = |often: &u64| at.checked_sub(*often).map(|left| at = left).is_none();
    match weather.iter().position(comes) {
        Some(0) => world.add(dice),
        Some(1) => world.send(),
        Some(2) => world.replace(),
        Some(3) => world.hear(dice),
        Some(4) => {
            world.tell(0);
            Ok(())
        }
        Some(5) => world.learn(dice),
        Some(6) => world.swap(dice),
        _ => world.other(dice),
    }
}

/// One run to its end: what was met, or at which event what was not so.
fn run(wrong: Wrong, dice: &mut Dice) -> Result<Tally, String> {
    let mut world = World::first(wrong, dice)?;
    let weather = weather(dice);
    for event in 0..EVENTS {
        let checked = happen(&mut world, &weather, dice).and_then(|()| world.look());
        checked.map_err(|words| format!("event {event}: {words}"))?;
    }
    let lost = world.packets.iter().filter(|packet| packet.heard == 0).count();
    let unheard = world.acks.iter().filter(|ack| ack.heard == 0).count();
    world.tally.insert("packets lost", lost as u64);
    world.tally.insert("acknowledgements lost", unheard as u64);
    Ok(world.tally)
}

/// All runs of the right world: what was met, or the first run in which something was not so.
fn right(seed: u64, runs: u64) -> Result<Tally, String> {
    let (dice, mut met) = (&mut Dice::new(seed), Tally::new());
    for number in 0..runs {
        let tally = run(Wrong::Nothing, dice).map_err(|words| format!("run {number}, {words}"))?;
        tally.into_iter().for_each(|(name, times)| *met.entry(name).or_default() += times);
    }
    Ok(met)
}

fn main() -> ExitCode {
    let words: Option<Vec<u64>> = std::env::args().skip(1).map(|word| word.parse().ok()).collect();
    let Some([seed, runs]) = words.as_deref() else {
        eprintln!("usage: node-link SEED RUNS");
        return ExitCode::from(2);
    };
    let met = match right(*seed, *runs) {
        Ok(met) => met,
        Err(words) => {
            println!("link: {words}");
            return ExitCode::FAILURE;
        }
    };
    println!("link: {runs} runs of {EVENTS} events, all as request [4] says; met in them");
    let mut sound = true;
    for name in MUST {
        let times = met.get(name).copied().unwrap_or(0);
        println!("link: {times:8} {name}");
        sound &= times > 0;
    }
    for (wrong, name) in WRONG {
        let (dice, tried) = (&mut Dice::new(*seed), runs.div_ceil(10));
        let found = (0..tried).filter(|_| run(wrong, dice).is_err()).count();
        println!("link: wrong world, {name}: found in {found} of {tried} runs");
        sound &= found > 0;
    }
    if sound { ExitCode::SUCCESS } else { ExitCode::FAILURE }
}
