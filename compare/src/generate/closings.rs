//! The receiver lists, with closing counters: parts of them in turn, half of whose takes tell it.

use super::random::Random;
use super::receiver;
use std::iter;

/// Lines that are no calls.
const NO_CALLS: [&str; 8] = [
    "T",
    "T 0",
    "T 4 510 254 254",
    "T 0 510 254",
    "T 0 510 254 254 254",
    "T 0 510 254 4097",
    "T 0 510 -254 254",
    "tT 0 510 254 254",
];

pub fn lines(mut random: Random) -> impl Iterator<Item = String> {
    let before_any_receiver = iter::once("T 0 510 254 254".into());
    before_any_receiver.chain(iter::repeat_with(move || part(&mut random)).flatten())
}

/// The beginning of a list, which makes its receivers anew.
fn part(random: &mut Random) -> Vec<String> {
    let kind = receiver::any_kind(random);
    let list = receiver::lines(kind, Random::new(random.next())).expect("a kind");
    let length = random.between(1, 10_000) as usize;
    list.take(length)
        .flat_map(|call| with_counter(random, call))
        .collect()
}

/// The call, or the take that tells the closing counter in the place of one that does not.
fn with_counter(random: &mut Random, call: String) -> Vec<String> {
    match call.strip_prefix("t ") {
        Some(taken) if random.one_in(2) => {
            let no_call = random.one_in(10).then(|| random.pick(&NO_CALLS).into());
            no_call.into_iter().chain([format!("T {taken}")]).collect()
        }
        _ => vec![call],
    }
}
