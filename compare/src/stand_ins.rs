//! Document 01's stand-ins: magnitude, quarter turns, and what `tetra_core` would give.

use crate::Complex;

/// 4 slots, 18 frames, 60 multiframes, 65,536 hyperframes.
pub const SLOTS: i32 = 4 * 18 * 60 * 65_536;

/// A slot number, 0 to `SLOTS` - 1.
#[derive(Clone, Copy, Debug, Default, PartialEq)]
pub struct TdmaTime(i32);

impl TdmaTime {
    pub fn from_int(n: i32) -> Self {
        Self(n.rem_euclid(SLOTS))
    }

    pub fn to_int(self) -> i32 {
        self.0
    }

    pub fn add_timeslots(self, n: i32) -> Self {
        Self((self.0 as i64 + n as i64).rem_euclid(SLOTS as i64) as i32)
    }
}

#[derive(Clone, Copy, Debug, Default, PartialEq)]
pub enum TrainingSequence {
    #[default]
    NotFound,
    NormalTrainSeq1,
    NormalTrainSeq2,
    ExtendedTrainSeq,
    SyncTrainSeq,
}

/// The largest f32 whose square is not above re² + im², exactly; 0.0 if a part is NaN or infinite.
pub fn magnitude(sample: Complex<f32>) -> f32 {
    if !(sample.re.is_finite() && sample.im.is_finite()) {
        return 0.0;
    }
    let larger = sample.re.abs().max(sample.im.abs());
    let smaller = sample.re.abs().min(sample.im.abs());
    let (m, exponent) = significand(larger);
    let (n, lower) = significand(smaller);
    // In units of 2^exponent every f32 from `larger` on is a whole number, so the sum may be rounded down.
    let square = m * m + (n * n).checked_shr(2 * (exponent - lower)).unwrap_or(0);
    let root = square.isqrt();
    // From 2^24 on only even numbers of units are f32s.
    let root = if root < 1 << 24 { root } else { root & !1 };
    let units = 2f64.powi(exponent as i32 - 149);
    (root as f64 * units).min(f32::MAX as f64) as f32
}

/// x = m · 2^(e - 149), for a finite x from 0 on.
fn significand(x: f32) -> (u64, u32) {
    let fraction = (x.to_bits() & 0x7f_ffff) as u64;
    match x.to_bits() >> 23 {
        0 => (fraction, 0),
        biased => (fraction | 0x80_0000, biased - 1),
    }
}

/// The angle of (i, q) in quarter turns, from 0 to below 4.
pub fn quarter_turns(i: f32, q: f32) -> f32 {
    if !(i.is_finite() && q.is_finite()) || (i == 0.0 && q == 0.0) {
        return 0.0;
    }
    let z = i.abs().min(q.abs()) / i.abs().max(q.abs());
    let mut u = z * (0.5 + 0.1738 * (1.0 - z));
    if q.abs() > i.abs() {
        u = 1.0 - u;
    }
    match (i >= 0.0, q >= 0.0) {
        (true, true) => u,
        (false, true) => 2.0 - u,
        (false, false) => 2.0 + u,
        (true, false) if 4.0 - u < 4.0 => 4.0 - u,
        (true, false) => 0.0,
    }
}

#[cfg(test)]
mod tests {
    use super::*;
    use crate::generate::random::Random;

    fn magnitude_of(re: f32, im: f32) -> f32 {
        magnitude(Complex { re, im })
    }

    #[test]
    fn checked_magnitudes() {
        assert_eq!(magnitude_of(3.0, 4.0).to_bits(), 5f32.to_bits());
        assert_eq!(magnitude_of(-0.0, -0.0).to_bits(), 0);
        assert_eq!(magnitude_of(f32::NAN, 1.0).to_bits(), 0);
        assert_eq!(magnitude_of(f32::NEG_INFINITY, 1.0).to_bits(), 0);
        assert_eq!(magnitude_of(f32::MAX, f32::MAX), f32::MAX);
        assert_eq!(
            magnitude_of(f32::from_bits(3), f32::from_bits(4)).to_bits(),
            5
        );
    }

    /// The definition itself in u128, for whole numbers from 2^24 to 2^62, whose neighbours are whole too.
    #[test]
    fn magnitude_is_the_largest_with_a_square_not_above() {
        let mut random = Random::new(1);
        let square = |x: f32| (x as u128) * (x as u128);
        for _ in 0..100_000 {
            let mut part = || ((1 << 23 | random.below(1 << 23)) << (1 + random.below(38))) as f32;
            let (re, im) = (part(), part());
            let found = magnitude_of(re, -im);
            let sum = square(re) + square(im);
            assert!(
                square(found) <= sum && sum < square(found.next_up()),
                "{re} {im}"
            );
        }
    }

    #[test]
    fn checked_timings() {
        let rows = [
            (1.0, 1.0, 0.5),
            (0.0, 1.0, 1.0),
            (-1.0, 0.0, 2.0),
            (0.0, -1.0, 3.0),
            (1.0, -(2f32.powi(-30)), 0.0),
            (0.0, 0.0, 0.0),
        ];
        for (i, q, turns) in rows {
            assert_eq!(
                quarter_turns(i, q).to_bits(),
                f32::to_bits(turns),
                "{i} {q}"
            );
        }
    }

    #[test]
    fn slot_numbers_wrap() {
        assert_eq!(TdmaTime::from_int(-1).to_int(), 283_115_519);
        assert_eq!(TdmaTime::from_int(-1).add_timeslots(3).to_int(), 2);
        assert_eq!(TdmaTime::default().add_timeslots(-2).to_int(), 283_115_518);
    }
}
