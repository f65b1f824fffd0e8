//! Samples for the lone filter line, in stretches of one sort each: only among its like does a small value count.

use super::random::Random;
use crate::refusals::LARGEST_PART;
use crate::session::hex;
use std::iter;

/// The biased exponent of the largest values below 1,024.
const TOP: i64 = 136;

pub fn lines(mut random: Random) -> impl Iterator<Item = String> {
    iter::repeat_with(move || stretch(&mut random)).flatten()
}

fn stretch(random: &mut Random) -> Vec<String> {
    // Exponents of a stretch: subnormal, all, the largest, or a narrow band.
    let low = random.between(0, TOP - 4);
    let (low, high) = random.pick(&[(0, 0), (0, TOP), (TOP - 11, TOP), (low, low + 3)]);
    let zeros = random.pick(&[2, 20, 20]);
    let mut lines = Vec::new();
    if random.one_in(3) {
        lines.push("lnew".into());
    }
    for _ in 0..random.between(1, 100) {
        let mut part = || match random.below(zeros) {
            0 => random.signed(0.0),
            1 if high == TOP => random.signed(LARGEST_PART),
            _ => {
                let exponent = random.between(low, high) as u32;
                let fraction = random.below(1 << 23) as u32;
                random.signed(f32::from_bits(exponent << 23 | fraction))
            }
        };
        lines.push(format!("l {} {}", hex(part()), hex(part())));
    }
    lines
}
