//! Corner values for magnitude and quarter turns.

use super::random::Random;
use crate::session::hex;

pub fn magnitude(random: &mut Random) -> String {
    let (re, im) = pair(random);
    format!("m {} {}", hex(re), hex(im))
}

pub fn timing(random: &mut Random) -> String {
    let (i, q) = pair(random);
    format!("a {} {}", hex(i), hex(q))
}

/// Two parts in either order and with any signs.
fn pair(random: &mut Random) -> (f32, f32) {
    let (a, b) = match random.below(8) {
        0 => (special(random), special(random)),
        1 => (special(random), any(random)),
        2 => pythagorean(random),
        3 => on_the_diagonal(random),
        4 => (
            f32::from_bits(random.below(1 << 23) as u32),
            f32::from_bits(random.below(1 << 23) as u32),
        ),
        5 | 6 => near_exponents(random),
        _ => (any(random), any(random)),
    };
    let (a, b) = if random.one_in(2) { (a, b) } else { (b, a) };
    (random.signed(a), random.signed(b))
}

fn special(random: &mut Random) -> f32 {
    let at = random.pick(&[
        0.0,
        1.0,
        2f32.powi(-30),
        2f32.powi(127),
        1024.0,
        f32::from_bits(1),
        f32::MIN_POSITIVE,
        f32::MAX,
        f32::INFINITY,
        f32::NAN,
    ]);
    neighbour(random, at)
}

/// Any bit pattern, NaN and infinities included.
fn any(random: &mut Random) -> f32 {
    f32::from_bits(random.next() as u32)
}

/// Legs of a right triangle with whole sides, scaled by a power of two, or a neighbour.
fn pythagorean(random: &mut Random) -> (f32, f32) {
    let (n, m) = (random.between(1, 2000), random.between(1, 2000));
    let scale = 2f32.powi(random.between(-149, 105) as i32);
    let legs = ((m * m - n * n) as f32 * scale, (2 * m * n) as f32 * scale);
    (neighbour(random, legs.0), neighbour(random, legs.1))
}

fn on_the_diagonal(random: &mut Random) -> (f32, f32) {
    let x = any(random);
    (x, neighbour(random, x))
}

/// Two normal numbers whose exponents differ by 0 to 15: where both count for the magnitude.
fn near_exponents(random: &mut Random) -> (f32, f32) {
    let exponent = random.between(16, 254) as u32;
    let lower = exponent - random.below(16) as u32;
    let mut with = |exponent: u32| f32::from_bits(exponent << 23 | random.below(1 << 23) as u32);
    (with(exponent), with(lower))
}

/// The value itself or the one before or after it in the order of bit patterns.
fn neighbour(random: &mut Random, x: f32) -> f32 {
    f32::from_bits(
        x.to_bits()
            .wrapping_add_signed(random.between(-1, 1) as i32),
    )
}
