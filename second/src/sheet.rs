//! "Sheet": accepted steps and nine sums.

use crate::numbers::Amounts;

/// The largest size of one amount on a sheet.
pub const LARGEST: i64 = 30_000_000_000;
/// A sheet with so many steps takes no more.
pub const FULL: u64 = 100_000_000;

/// Steps and nine sums: all amounts but left, recharge last.
#[derive(Clone, Copy, Debug, Default, PartialEq, Eq)]
pub struct Sheet {
    pub steps: u64,
    pub sums: [i64; 9],
}

impl Sheet {
    /// Add an answer; hands back the new sheet with its number.
    pub fn add(mut self, number: u32, amounts: &Amounts) -> (Sheet, u32) {
        if number != 0 || self.steps >= FULL || !addable(amounts) || !self.sound() {
            return (self, 11);
        }
        self.steps += 1;
        for (sum, amount) in self.sums.iter_mut().zip(amounts.nine()) {
            *sum += amount;
        }
        (self, 0)
    }

    /// No sum negative but recharge, none larger than the steps allow.
    fn sound(&self) -> bool {
        let limit = LARGEST as u64 * self.steps;
        self.sums[..8].iter().all(|sum| *sum >= 0)
            && self.sums.iter().all(|sum| sum.unsigned_abs() <= limit)
    }
}

/// No amount negative but recharge, none too large in size; left counts too.
fn addable(amounts: &Amounts) -> bool {
    let nine = amounts.nine();
    nine[..8].iter().all(|amount| *amount >= 0)
        && amounts.left >= 0
        && nine.iter().all(|amount| amount.unsigned_abs() <= LARGEST as u64)
        && amounts.left <= LARGEST
}
