//! Made sums: in range, often where a carry or the limit is near.

use super::dice::Dice;
use crate::sums::{Sums, MOST_SUMMED};

/// The sums of a row in range.
pub fn made_sums(dice: &mut Dice) -> Sums {
    Sums { runoff: made_sum(dice), drainage: made_sum(dice) }
}

/// One sum: nothing, anything, or so little below a limit that a step may pass it.
fn made_sum(dice: &mut Dice) -> u64 {
    let some = dice.below(MOST_SUMMED + 1) >> dice.below(60);
    let less = a_step_less(dice);
    match dice.below(6) {
        0 | 1 => 0,
        2 => some,
        // Just below a number whose low part is 0, so that the next step carries.
        3 => ((some >> 32) << 32 | 0xffff_ffff).min(MOST_SUMMED) - less.min(0xffff_ffff),
        _ => MOST_SUMMED - less,
    }
}

/// No more than what a step may add: few micrometres, a day's runoff, or the most that can drain.
fn a_step_less(dice: &mut Dice) -> u64 {
    let (few, runoff) = (dice.below(4), dice.below(2_000_001));
    let drainage = dice.below(20_000_000_001);
    dice.pick(&[0, few, runoff, runoff, drainage])
}
