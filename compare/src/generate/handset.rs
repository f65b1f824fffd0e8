//! Uplink bursts: built from their blocks, refused, and judged in windows where they stand alone.

use super::builders::content;
use super::random::Random;
use super::{spoil_a_bit, wrong_length};
use crate::phy::components::train_consts::SEQ_NORM1_AS_ARR;
use crate::session::{digits, ANSWER_BYTES, FULL_BITS, HALF_BITS};
use crate::uplink_bursts::{self, UplinkWanted};
use std::iter;

/// Lines that are no calls. Only the uplink builders take `#`.
const NO_CALLS: [&str; 24] = [
    "u 4294967296 # #",
    "u +1 # #",
    "u -1 = =",
    "u S = =",
    "u  1 # #",
    "u 1 # -",
    "u 1 #0 #",
    "u 1 # #001",
    "u 1 #0g #00",
    "u 1 #+1 #00",
    "u 1 =0a =0",
    "u 1 =#0 =",
    "u 1 #=0 #",
    "u 1 01 =01",
    "u 1 #",
    "u # #",
    "c # -",
    "c #0 #",
    "c # #xy",
    "c 1 # #",
    "b N #00",
    "d 1 # # #",
    "j 1 6 #00",
    "w 0 0 #00",
];

pub fn lines(mut random: Random) -> impl Iterator<Item = String> {
    iter::repeat_with(move || turn(&mut random)).flatten()
}

/// Calls that are refused or none, then a burst and windows with it.
fn turn(random: &mut Random) -> Vec<String> {
    let mut lines = vec![refused(random), refused(random), no_call(random)];
    let wanted = any_wanted(random);
    let mut blocks = any_blocks(random, wanted);
    plant_sequence(random, wanted, &mut blocks);
    lines.push(call(random, wanted, &blocks));
    let burst = uplink_bursts::build(wanted, [&blocks[0], &blocks[1]]).expect("bits");
    let odd = [(); 2].map(|_| 2 * random.below(25) as usize + 1);
    let offsets = (0..=50).step_by(2).chain(odd);
    lines.extend(offsets.map(|offset| window(wanted, &burst, offset)));
    lines
}

fn any_wanted(random: &mut Random) -> UplinkWanted {
    random.pick(&[
        UplinkWanted::Normal(1),
        UplinkWanted::Normal(2),
        UplinkWanted::Control,
    ])
}

fn any_blocks(random: &mut Random, wanted: UplinkWanted) -> [Vec<u8>; 2] {
    [(); 2].map(|_| content(random, wanted.block_bits()))
}

/// Puts the burst's own sequence before its place, or normal sequence 1 on either side, so that some windows have it where a
/// sequence is looked for.
fn plant_sequence(random: &mut Random, wanted: UplinkWanted, [first, second]: &mut [Vec<u8>; 2]) {
    let end = wanted.block_bits();
    let own = wanted.sequence().expect("a sequence");
    let other = wrong_by(random, &SEQ_NORM1_AS_ARR);
    match random.below(4) {
        0 => plant(first, end - distance(random), own),
        1 => plant(first, end - distance(random), &other),
        2 => plant(second, random.below(27) as usize, &other),
        _ => {}
    }
}

/// So many bits before the training sequence, mostly an even number. From 16 bits before its place each sequence runs on into
/// itself.
fn distance(random: &mut Random) -> usize {
    let any = random.between(22, 48) as usize;
    let even = any / 2 * 2;
    random.pick(&[any, even, even, 16])
}

/// A sequence with 0, 1 or 2 wrong bits.
fn wrong_by(random: &mut Random, sequence: &[u8]) -> Vec<u8> {
    let mut wrong = sequence.to_vec();
    let first = random.below(sequence.len() as u64) as usize;
    for at in 0..random.below(3) as usize {
        wrong[(first + at) % sequence.len()] ^= 1;
    }
    wrong
}

/// Writes a sequence into a block from a place on, as far as it fits.
fn plant(block: &mut [u8], place: usize, sequence: &[u8]) {
    for (bit, &planted) in block[place..].iter_mut().zip(sequence) {
        *bit = planted;
    }
}

/// The logger's call for a window of zeros with a burst in it, of which what does not fit is cut.
fn window(wanted: UplinkWanted, burst: &[u8], offset: usize) -> String {
    let (kind, length) = match wanted {
        UplinkWanted::Normal(_) => (1, FULL_BITS),
        UplinkWanted::Control => (2, HALF_BITS),
    };
    let mut bits = vec![0; length];
    plant(&mut bits, offset, burst);
    format!("j {kind} {ANSWER_BYTES} ={}", digits(&bits))
}

/// A burst's call with one or several reasons to be refused.
fn refused(random: &mut Random) -> String {
    let mut wanted = any_wanted(random);
    let mut blocks = any_blocks(random, wanted);
    let which = random.below(2) as usize;
    let reasons = random.between(1, 7);
    if reasons & 1 != 0 {
        let length = if random.one_in(50) {
            random.between(500, 15_000) as usize
        } else {
            wrong_length(random, wanted.block_bits())
        };
        blocks[which] = content(random, length);
    }
    if reasons & 2 != 0 {
        let block = &mut blocks[random.below(2) as usize];
        spoil_a_bit(random, block);
        if let Some(spoilt) = block.iter_mut().find(|byte| **byte > 1) {
            *spoilt = random.pick(&[*spoilt, 10, 16, b'0', b'1', 128, 255]);
        }
    }
    if reasons & 4 != 0 {
        if let UplinkWanted::Normal(sequence) = &mut wanted {
            *sequence = random.pick(&[0, 3, 4, u32::MAX]);
        }
    }
    call(random, wanted, &blocks)
}

/// A line that is no call, or one with a character too many, which may be refused only.
fn no_call(random: &mut Random) -> String {
    if random.one_in(2) {
        return random.pick(&NO_CALLS).into();
    }
    let wanted = any_wanted(random);
    let blocks = any_blocks(random, wanted);
    let call = call(random, wanted, &blocks);
    format!("{call}{}", random.pick(&["0", "g", "#", "="]))
}

fn call(random: &mut Random, wanted: UplinkWanted, blocks: &[Vec<u8>; 2]) -> String {
    let [first, second] = blocks.each_ref().map(|block| bytes(random, block));
    match wanted {
        UplinkWanted::Normal(sequence) => format!("u {sequence} {first} {second}"),
        UplinkWanted::Control => format!("c {first} {second}"),
    }
}

/// Bytes as digits, or in pairs of hexadecimal digits of either case, as all can be written.
fn bytes(random: &mut Random, bytes: &[u8]) -> String {
    let upper = random.one_in(2);
    if random.one_in(2) && bytes.iter().all(|&byte| byte <= 9) {
        return format!("={}", digits(bytes));
    }
    let pairs = bytes.iter().map(|byte| match upper {
        true => format!("{byte:02X}"),
        false => format!("{byte:02x}"),
    });
    iter::once("#".into()).chain(pairs).collect()
}
