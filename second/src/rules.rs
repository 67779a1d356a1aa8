//! "One accepted step": steps 1 to 11 in the page's order, each by itself; a void is step 1, the queue's own, alone.
//! All amounts are whole micrometres; d is the depth, k the delay.

use crate::numbers::{Amounts, Card, Reading};
use crate::queue::Queue;

/// Curve numbers of dry ground at the normal numbers 0, 5, 10 .. 100.
const DRY_GROUND: [i64; 21] =
    [0, 2, 4, 6, 9, 12, 15, 18, 22, 26, 31, 35, 40, 45, 51, 57, 63, 70, 78, 87, 100];
/// Curve numbers of wet ground at the same normal numbers.
const WET_GROUND: [i64; 21] =
    [0, 13, 22, 30, 37, 43, 50, 55, 60, 65, 70, 74, 78, 82, 85, 88, 91, 94, 96, 98, 100];

/// 2. Curve number c for the antecedent moisture condition.
pub fn curve_number(cn: i64, amc: u32) -> i64 {
    match amc {
        1 => on_the_line(&DRY_GROUND, cn).max(1),
        3 => on_the_line(&WET_GROUND, cn).max(1),
        _ => cn,
    }
}

/// The nearest whole number on the straight line between the two listed normal numbers around cn.
fn on_the_line(table: &[i64; 21], cn: i64) -> i64 {
    let place = (cn - 1) / 5;
    let (from, to) = (table[place as usize], table[place as usize + 1]);
    nearest(5 * from + (cn - 5 * place) * (to - from), 5)
}

/// The nearest whole number of a fraction, halves up.
fn nearest(above: i64, below: i64) -> i64 {
    (2 * above + below) / (2 * below)
}

/// 3. Storm runoff q, where the first wetting takes r percent of the storage.
pub fn storm_runoff(c: i64, r: i64, rain: i64) -> i64 {
    let x = c * rain - 2_540 * r * (100 - c);
    let y = c * rain + 2_540 * (100 - r) * (100 - c);
    if x <= 0 {
        0
    } else {
        x * x / (c * y)
    }
}

/// 4. Delay k: the largest k whose delay depth is at most d, looked for from the deepest; 0 if none.
pub fn delay(card: &Card, d: i64) -> usize {
    let reached = |k: &usize| i64::from(card.depths[*k - 1]) <= d;
    (1..=card.delays as usize).rev().find(reached).unwrap_or(0)
}

/// 5. Runoff of G, with q as the storm's own runoff.
pub fn runoff(d: i64, k: usize, vadpor: i64, g: i64, q: i64) -> i64 {
    if d <= 0 {
        g
    } else if k == 0 && d * vadpor < 1000 * g {
        g - d * vadpor * (g - q) / (1000 * g)
    } else {
        q
    }
}

/// 6. etvad: what plants take from today's water.
pub fn etvad(g: i64, runoff: i64, pet: i64, etmin: i64, irrig: i64) -> i64 {
    (g - runoff).min(pet).min(etmin + irrig)
}

/// 7. etstor: what plants lack, drawn from slots 1 to M.
pub fn etstor(d: i64, etvad: i64, etmin: i64, queue: &mut impl Queue, delays: usize) -> i64 {
    if d <= 0 || etvad >= etmin {
        return 0;
    }
    queue.draw(etmin - etvad, delays)
}

/// 8. etsat: what plants take from the water table, out of what is left of pet.
pub fn etsat(d: i64, etdepth: i64, rest: i64) -> i64 {
    if d <= 0 {
        rest
    } else if d < etdepth {
        (etdepth - d) * rest / etdepth
    } else {
        0
    }
}

/// 9. drain: what leaves a water table standing above the top.
pub fn drain(d: i64, leak: i64) -> i64 {
    if d < 0 {
        leak * -d / 1_000_000
    } else {
        0
    }
}

/// 10. Deposit F: into slot k as stored, or direct when there is no delay.
pub fn deposit(k: usize, f: i64, queue: &mut impl Queue, delays: usize) -> (i64, i64) {
    if k == 0 {
        return (0, f);
    }
    queue.join(k, f, delays);
    (f, 0)
}

/// 11. Net recharge, signed.
pub fn recharge(release: i64, direct: i64, septic: i64, etsat: i64, drain: i64) -> i64 {
    release + direct + septic - etsat - drain
}

/// Steps 1 to 11 on one cell's soil numbers and queue.
pub fn day(card: &Card, soil: &[i64], queue: &mut impl Queue, r: &Reading, d: i64) -> Amounts {
    let (etdepth, vadpor, leak, cn) = (soil[1], soil[2], soil[3], soil[4]);
    let (rain, irrig, septic) = (i64::from(r.rain), i64::from(r.irrig), i64::from(r.septic));
    let (etmin, pet) = (i64::from(r.etmin), i64::from(r.pet));
    let delays = card.delays as usize;
    let g = rain + irrig;

    let release = queue.shift(delays);
    let c = curve_number(cn, r.amc);
    let q = storm_runoff(c, i64::from(card.share), rain);
    let k = delay(card, d);
    let runoff = runoff(d, k, vadpor, g, q);
    let etvad = etvad(g, runoff, pet, etmin, irrig);
    let etstor = etstor(d, etvad, etmin, queue, delays);
    let etsat = etsat(d, etdepth, pet - etvad - etstor);
    let drain = drain(d, leak);
    let (stored, direct) = deposit(k, g - runoff - etvad, queue, delays);
    let recharge = recharge(release, direct, septic, etsat, drain);

    let inflow = g + septic;
    let left = queue.total();
    Amounts { inflow, runoff, etvad, etstor, etsat, drain, release, stored, recharge, left }
}

/// A day without figures: the queue shifts, and what it releases is the recharge.
pub fn void_day(card: &Card, queue: &mut impl Queue) -> Amounts {
    let release = queue.shift(card.delays as usize);
    Amounts { release, recharge: release, left: queue.total(), ..Amounts::default() }
}
