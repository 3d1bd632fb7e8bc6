//! Two sides that take turns on many texts of a size, and their medians.

use super::clock::now;

/// How many times each side is timed, and for how many nanoseconds at least each time.
const ROUNDS: usize = 32;
const ROUND: f64 = 5e5;

/// All texts of a size have so many bytes at least: on one short text again and again, branch
/// prediction learns every branch, and no longer text could be as fast. There are some of each size,
/// since random ones differ.
const BYTES: usize = 1 << 17;
const TEXTS: usize = 4;

/// Makes texts by their numbers until there are enough.
pub fn enough<T>(make: impl Fn(u64) -> T, bytes: impl Fn(&T) -> usize) -> Vec<T> {
    let mut total = 0;
    let mut texts = Vec::new();
    while texts.len() < TEXTS || total < BYTES {
        let text = make(texts.len() as u64);
        total += bytes(&text);
        texts.push(text);
    }
    texts
}

/// The time of one round over all that is lent, in nanoseconds, out of so many.
fn time<T>(side: fn(&mut T), calls: usize, lent: &mut T) -> f64 {
    let start = now();
    for _ in 0..calls {
        side(lent);
    }
    (now() - start) / calls as f64
}

fn median(mut times: Vec<f64>) -> f64 {
    times.sort_by(f64::total_cmp);
    times[times.len() / 2]
}

/// The median times, in nanoseconds, of two sides that are lent the same.
pub fn medians<T>(sides: [fn(&mut T); 2], lent: &mut T) -> [f64; 2] {
    let calls = sides.map(|side| {
        let once = time(side, 1, lent);
        1 + (ROUND / once) as usize
    });
    let mut times = [Vec::new(), Vec::new()];
    for round in 0..ROUNDS {
        // Each goes first in half of the rounds.
        for turn in [round % 2, 1 - round % 2] {
            times[turn].push(time(sides[turn], calls[turn], lent));
        }
    }
    times.map(median)
}
