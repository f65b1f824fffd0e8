//! Windows for the logger's judging call: training sequences at every place, with few differences, several at once.

use super::random::Random;
use super::{spoil_a_bit, wrong_length};
use crate::phy::components::train_consts::*;
use crate::session::{digits, ANSWER_BYTES, FULL_BITS, HALF_BITS};

const SEQUENCES: [&[u8]; 4] = [
    &SEQ_SYNC_AS_ARR,
    &SEQ_NORM1_AS_ARR,
    &SEQ_NORM2_AS_ARR,
    &SEQ_EXT_AS_ARR,
];

pub fn lines(mut random: Random) -> impl Iterator<Item = String> {
    (0..).map(move |turn| line(&mut random, turn))
}

fn line(random: &mut Random, turn: usize) -> String {
    let kind = random.below(3);
    let length = if kind == 2 { HALF_BITS } else { FULL_BITS };
    let mut bits = background(random, length);
    let fitting = fitting_sequences(kind);
    if random.one_in(2) {
        let sequence = random.pick(&SEQUENCES);
        plant(
            random,
            &mut bits,
            sequence,
            turn % (length - sequence.len() + 1),
        );
    }
    for _ in 0..random.below(4) {
        let (sequence, first) = random.pick(fitting);
        let place = first + random.pick(&[0, 0, 1, 2, turn % 52]);
        plant(random, &mut bits, sequence, place);
    }
    refusable(random, kind, bits)
}

/// The sequences looked for in a kind of window, and the first place of each.
fn fitting_sequences(kind: u64) -> &'static [(&'static [u8], usize)] {
    match kind {
        0 => &[
            (&SEQ_SYNC_AS_ARR, 214),
            (&SEQ_NORM1_AS_ARR, 244),
            (&SEQ_NORM2_AS_ARR, 244),
        ],
        1 => &[(&SEQ_NORM1_AS_ARR, 220), (&SEQ_NORM2_AS_ARR, 220)],
        _ => &[(&SEQ_EXT_AS_ARR, 88)],
    }
}

fn background(random: &mut Random, length: usize) -> Vec<u8> {
    match random.below(4) {
        0 => vec![0; length],
        1 => vec![1; length],
        _ => random.bits(length),
    }
}

/// Writes a sequence with up to 2 differences.
fn plant(random: &mut Random, bits: &mut [u8], sequence: &[u8], place: usize) {
    let planted = &mut bits[place..place + sequence.len()];
    planted.copy_from_slice(sequence);
    for _ in 0..random.below(3) {
        let at = random.below(sequence.len() as u64) as usize;
        planted[at] = 1 - sequence[at];
    }
}

/// The call, now and then with one or several reasons to be refused.
fn refusable(random: &mut Random, kind: u64, mut bits: Vec<u8>) -> String {
    let mut answer_length = ANSWER_BYTES;
    if random.one_in(20) {
        answer_length = wrong_length(random, ANSWER_BYTES);
    }
    if random.one_in(20) {
        let length = wrong_length(random, bits.len());
        bits.resize(length, 0);
    }
    if random.one_in(20) {
        spoil_a_bit(random, &mut bits);
    }
    let other_kinds = [(kind + 1) % 3, 3, 4, 255, 256, u32::MAX as u64];
    let kind = if random.one_in(20) {
        random.pick(&other_kinds)
    } else {
        kind
    };
    format!("j {kind} {answer_length} ={}", digits(&bits))
}
