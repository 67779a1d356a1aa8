//! Slices lent to the library, with watched places on both sides of each.

use std::fmt::Debug;

/// Watched places on each side.
const WATCHED: usize = 8;

/// A slice lent to the library.
pub struct Lent<T> {
    all: Vec<T>,
    watch: T,
}

impl<T: Copy + PartialEq + Debug> Lent<T> {
    /// A slice that holds these numbers, with another number on both sides of it.
    pub fn new(numbers: &[T], watch: T) -> Lent<T> {
        let side = [watch; WATCHED];
        Lent { all: [&side, numbers, &side].concat(), watch }
    }

    /// The slice itself.
    pub fn slice(&mut self) -> &mut [T] {
        let end = self.all.len() - WATCHED;
        &mut self.all[WATCHED..end]
    }

    /// What the slice holds.
    pub fn held(&self) -> &[T] {
        &self.all[WATCHED..self.all.len() - WATCHED]
    }

    /// Does the slice hold these numbers, with all the watched places as they were?
    pub fn holds(&self, numbers: &[T]) -> bool {
        let (before, rest) = self.all.split_at(WATCHED);
        let (held, after) = rest.split_at(rest.len() - WATCHED);
        held == numbers && before.iter().chain(after).all(|n| *n == self.watch)
    }
}

/// No difference, or one that names the slice and says what it holds and what it should hold.
pub fn same<T: Copy + PartialEq + Debug>(
    name: &str,
    library: &Lent<T>,
    second: &[T],
) -> Result<(), String> {
    if library.holds(second) {
        return Ok(());
    }
    let held = library.held();
    let place = (0..held.len()).find(|p| held.get(*p) != second.get(*p));
    Err(match place {
        Some(p) => {
            let (from, to) = (p.saturating_sub(4), p + 40);
            let near = |numbers: &[T]| format!("{:?}", &numbers[from..to.min(numbers.len())]);
            format!(
                "{name} from place {from}:\n  library {}\n  second  {}",
                near(held),
                near(second)
            )
        }
        None => format!("{name}: the library changed numbers outside the slice: {:?}", library.all),
    })
}

/// No difference, or one that says both answers.
pub fn equal<T: PartialEq + Debug>(name: &str, library: T, second: T) -> Result<(), String> {
    if library == second {
        return Ok(());
    }
    Err(format!("{name}:\n  library {library:?}\n  second  {second:?}"))
}
