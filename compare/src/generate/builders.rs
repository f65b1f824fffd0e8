//! Bursts built from joined blocks and from three slices: contents of every sort, each refusal, several at once.

use super::random::Random;
use super::{spoil_a_bit, wrong_length};
use crate::bursts::Wanted;
use crate::session::digits;

pub fn line(random: &mut Random) -> String {
    let (letter, sequence, wanted) = random.pick(&[
        ('S', "S", Wanted::Sync),
        ('N', "1", Wanted::Normal(1)),
        ('P', "2", Wanted::Normal(2)),
    ]);
    let other_kind = random.one_in(8);
    let mut blocks = wanted.lengths().map(|length| content(random, length));
    if random.one_in(8) {
        let which = random.below(3) as usize;
        let length = wrong_length(random, blocks[which].len());
        blocks[which] = content(random, length);
    }
    if random.one_in(8) {
        let which = random.below(3) as usize;
        spoil_a_bit(random, &mut blocks[which]);
    }
    if random.one_in(2) {
        let letter = if other_kind {
            random.pick(&['X', 'A', 's', 'n', 'p', 'z'])
        } else {
            letter
        };
        format!("b {letter} ={}", digits(&blocks.concat()))
    } else {
        let sequence = if other_kind {
            random.pick(&["0", "3", "4", "4294967295"])
        } else {
            sequence
        };
        let [first, middle, last] = blocks.map(|block| digits(&block));
        format!("d {sequence} ={first} ={middle} ={last}")
    }
}

/// A block: random, all alike, alternating, or with a single bit that differs.
pub fn content(random: &mut Random, length: usize) -> Vec<u8> {
    let bit = random.below(2) as u8;
    match random.below(5) {
        0 => vec![bit; length],
        1 => (0..length).map(|at| (at % 2) as u8 ^ bit).collect(),
        2 => {
            let lone = random.below(length.max(1) as u64) as usize;
            (0..length).map(|at| (at == lone) as u8 ^ bit).collect()
        }
        _ => random.bits(length),
    }
}
