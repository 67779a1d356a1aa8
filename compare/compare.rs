//! The comparison: `compare WATERBOOK SEED ROUNDS [FIRST]` gives the same made inputs to the proved code
//! and to the second program, and holds all that the one answers to the other's answers.

mod branches;
mod collects;
mod entries;
mod forms;
mod given;
mod heads;
mod journals;
mod lent;
mod lines;
mod moves;
mod numbers;
#[allow(dead_code)]
#[path = "../node/outbox.rs"]
mod outbox;
mod outboxes;
mod rains;
mod refusals;
mod runs;
mod shares;
mod sheets;
mod sides;
mod steps;
mod sums;
mod tally;
mod texts;
mod voids;
#[allow(dead_code)]
#[path = "../gateway/waterbook.rs"]
mod waterbook;
mod wild;

use given::Call;
use moves::Way;
use second::made::dice::Dice;
use std::process::ExitCode;
use tally::Tally;

/// All that must be met, by heading; a heading may have several lists, one after the other.
const MUST: &[(&str, &[&str])] = &[
    ("branches", branches::BRANCHES),
    ("storm runoff by share", branches::STORMS),
    ("every curve number", steps::CURVES),
    ("every share", shares::KINDS),
    ("every delay", steps::DELAYS),
    ("every full queue", voids::QUEUES),
    ("every edge of rain", rains::RAINS),
    ("refused for", refusals::CARDS),
    ("refused for", refusals::ROWS),
    ("refused for", refusals::TURNS),
    ("refused for its figures", refusals::FIGURES),
    ("voids", voids::VOIDS),
    ("voids refused for", refusals::CARDS),
    ("voids refused for", refusals::ROWS),
    ("voids refused for", refusals::TURNS),
    ("clearings", refusals::CARDS),
    ("clearings", refusals::CLEARINGS),
    ("added to the sums", sums::ADDED),
    ("sums at an edge", sums::EDGES),
    ("over full sums", sums::BEFORE),
    ("collections", refusals::CARDS),
    ("collections", refusals::ROWS),
    ("collections", collects::COLLECTIONS),
    ("moves over", refusals::CARDS),
    ("moves over", moves::MOVES),
    ("moves back", refusals::CARDS),
    ("moves back", moves::MOVES),
    ("moves back, by the sums", moves::SUMS),
    ("sites moved", moves::SITES),
    ("runs", runs::RUNS),
    ("heads met by the head's check", heads::CLASSES),
    ("sheets", sheets::REFUSALS),
    ("texts", texts::TEXTS),
    ("shares read", shares::READ),
    ("shares written", shares::WRITTEN),
    ("reading lines", entries::LINES),
    ("void lines", entries::LINES),
    ("answer lines", lines::ANSWERS),
    ("sheet lines", lines::SHEETS),
    ("journals", journals::JOURNALS),
    ("shares in journals", shares::READ),
    ("fresh outboxes", sides::FRESH),
    ("oldest entries offered", sides::OLDEST),
    ("oldest entries replaced", sides::OLDEST),
    ("entries added", sides::ADDED),
    ("acknowledgements", sides::HEARD),
    ("battery swaps", sides::SWAPS),
    ("outboxes or entries out of shape", forms::SHAPES),
    ("outboxes out of form", forms::FORMS),
    ("runs of outboxes", outboxes::RUNS),
];

/// What the comparison is asked to do.
struct Asked {
    program: String,
    seed: u64,
    rounds: u64,
    /// The first round; given only to go through some rounds again.
    first: Option<u64>,
}

/// The words of the command line.
fn asked() -> Option<Asked> {
    let mut words = std::env::args().skip(1);
    let program = words.next()?;
    let numbers: Option<Vec<u64>> = words.map(|word| word.parse().ok()).collect();
    match numbers?[..] {
        [seed, rounds] => Some(Asked { program, seed, rounds, first: None }),
        [seed, rounds, first] => Some(Asked { program, seed, rounds, first: Some(first) }),
        _ => None,
    }
}

/// The dice of one round.
fn dice_of(seed: u64, round: u64) -> Dice {
    let mut stirred = Dice::new(seed ^ 0x77a7_e2b0_0c5e_ed00);
    Dice::new(stirred.roll().wrapping_add(round.wrapping_mul(0x9fb2_1c65_1e98_df25)))
}

/// One round: days, wild steps and voids, clearings, collections, moves, sheets, texts, journals, outboxes; round 0
/// begins with the sweeps.
fn round(asked: &Asked, round: u64, tally: &mut Tally) -> Result<(), String> {
    let dice = &mut dice_of(asked.seed, round);
    if round == 0 {
        steps::curves(tally)?;
        shares::on_cards(tally)?;
        steps::delays(tally)?;
        voids::queues(tally)?;
        rains::at_edges(tally)?;
        sums::at_edges(tally)?;
        sums::before_15(tally)?;
        moves::sites(tally)?;
        shares::in_texts(tally)?;
    }
    let days = 200 + dice.below(1000);
    runs::run(dice, tally, days)?;
    steps::wild_steps(dice, tally, Call::Step, 100)?;
    steps::wild_steps(dice, tally, Call::Step, 100)?;
    steps::wild_steps(dice, tally, Call::Void, 100)?;
    steps::clearings(dice, tally, 10)?;
    collects::wild_collections(dice, tally, 30)?;
    moves::wild_moves(dice, tally, Way::Over, 20)?;
    moves::wild_moves(dice, tally, Way::Back, 20)?;
    sheets::wild_sheets(dice, tally, 200)?;
    for _ in 0..40 {
        entries::read_and_write(dice, tally)?;
        texts::read_card(dice, tally)?;
        texts::write_card(dice, tally)?;
    }
    for _ in 0..10 {
        lines::write_answer(dice, tally)?;
        lines::write_sheet(dice, tally)?;
    }
    for place in 0..8 {
        journals::by_call(dice, asked.seed, 8 * round + place, tally)?;
    }
    if round % 5 == 0 {
        let place = u64::MAX / 2 + round;
        journals::by_program(dice, (asked.seed, place), &asked.program, tally)?;
    }
    outboxes::wild_calls(dice, tally, 100)?;
    let calls = 100 + dice.below(400);
    outboxes::run(dice, tally, calls)
}

/// All rounds: the first difference, if there is one.
fn rounds(asked: &Asked, tally: &mut Tally) -> Result<(), String> {
    let first = asked.first.unwrap_or(0);
    for place in first..first + asked.rounds {
        round(asked, place, tally).map_err(|what| {
            let seed = asked.seed;
            format!("difference: seed={seed} round={place}: {what}\ndifference: seed={seed} round={place}")
        })?;
    }
    Ok(())
}

fn main() -> ExitCode {
    let Some(asked) = asked() else {
        eprintln!("usage: compare WATERBOOK SEED ROUNDS [FIRST]");
        return ExitCode::from(2);
    };
    println!("compare: seed={} rounds={}", asked.seed, asked.rounds);
    let mut tally = Tally::default();
    if let Err(difference) = rounds(&asked, &mut tally) {
        println!("{difference}");
        return ExitCode::FAILURE;
    }
    tally.print();
    let missing = if asked.first.is_some() { Vec::new() } else { tally.missing() };
    for thing in &missing {
        println!("not met: seed={} {thing}", asked.seed);
    }
    if !missing.is_empty() {
        return ExitCode::FAILURE;
    }
    println!("compare: no difference, seed={}", asked.seed);
    ExitCode::SUCCESS
}
