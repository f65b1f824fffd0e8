//! What the original takes from the crates `num`, `num_complex` and `tracing`, operation for operation.

use std::ops::{Add, Mul};

#[derive(Clone, Copy, Debug, Default, PartialEq)]
pub struct Complex<T> {
    pub re: T,
    pub im: T,
}

impl Complex<f32> {
    pub const ZERO: Self = Self { re: 0.0, im: 0.0 };

    pub fn conj(self) -> Self {
        Self {
            re: self.re,
            im: -self.im,
        }
    }
}

impl Add for Complex<f32> {
    type Output = Self;

    fn add(self, other: Self) -> Self {
        Self {
            re: self.re + other.re,
            im: self.im + other.im,
        }
    }
}

impl Mul for Complex<f32> {
    type Output = Self;

    fn mul(self, other: Self) -> Self {
        Self {
            re: self.re * other.re - self.im * other.im,
            im: self.re * other.im + self.im * other.re,
        }
    }
}

impl Mul<Complex<f32>> for f32 {
    type Output = Complex<f32>;

    fn mul(self, other: Complex<f32>) -> Complex<f32> {
        Complex {
            re: self * other.re,
            im: self * other.im,
        }
    }
}

pub mod complex {
    /// Imported for `abs()` alone, which a stand-in replaces but where the original is timed.
    pub trait ComplexFloat {
        fn abs(self) -> f32;
    }

    impl ComplexFloat for super::Complex<f32> {
        fn abs(self) -> f32 {
            self.re.hypot(self.im)
        }
    }
}

pub fn zero<T: Default>() -> T {
    T::default()
}

/// Logging is left out; the arguments are still type-checked.
#[macro_export]
macro_rules! debug {
    ($($arg:tt)*) => {{ let _ = format_args!($($arg)*); }};
}

#[macro_export]
macro_rules! info {
    ($($arg:tt)*) => { $crate::debug!($($arg)*) };
}

#[macro_export]
macro_rules! warn {
    ($($arg:tt)*) => { $crate::debug!($($arg)*) };
}
