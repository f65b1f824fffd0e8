//! Call lists of each kind, endless and the same for the same seed.

mod builders;
mod closings;
mod corners;
mod filter;
mod finder;
mod handset;
mod malformed;
pub mod random;
mod receiver;
mod sender;
pub mod signal;

use crate::refusals::LARGEST_COUNTER;
use random::Random;
use std::iter;

const SLOT_SAMPLES: i64 = 1020;

/// Counters that are refused.
const BAD_COUNTERS: [i64; 4] = [-1, LARGEST_COUNTER + 1, i64::MIN, i64::MAX];

pub type Lines = Box<dyn Iterator<Item = String>>;

/// The lines of a kind.
pub fn lines(kind: &str, seed: u64) -> Option<Lines> {
    let mut random = Random::new(seed);
    let own = Random::new(random.next());
    let calls: Lines = match kind {
        "malformed" => return Some(endless(own, malformed::line)),
        "builders" => endless(own, builders::line),
        "magnitude" => endless(own, corners::magnitude),
        "timing" => endless(own, corners::timing),
        "filter" => Box::new(filter::lines(own)),
        "finder" => Box::new(finder::lines(own)),
        "handset" => Box::new(handset::lines(own)),
        "sender" => Box::new(sender::lines(own)),
        "closings" => Box::new(closings::lines(own)),
        _ => receiver::lines(kind, own)?,
    };
    Some(some_damaged(calls, random))
}

fn endless(mut random: Random, line: fn(&mut Random) -> String) -> Lines {
    Box::new(iter::repeat_with(move || line(&mut random)))
}

/// Puts a damaged copy, which must change nothing, before some of the calls.
fn some_damaged(calls: Lines, mut random: Random) -> Lines {
    Box::new(calls.flat_map(move |call| {
        let damaged = random
            .one_in(200)
            .then(|| malformed::damaged(&mut random, &call));
        damaged.into_iter().chain(iter::once(call))
    }))
}

/// Sets a byte to a digit that is no bit.
fn spoil_a_bit(random: &mut Random, bits: &mut [u8]) {
    if !bits.is_empty() {
        let at = random.below(bits.len() as u64) as usize;
        bits[at] = random.between(2, 9) as u8;
    }
}

/// A length near the right one, or far from it.
fn wrong_length(random: &mut Random, right: usize) -> usize {
    random.pick(&[0, 1, right - 1, right + 1, 2 * right])
}
