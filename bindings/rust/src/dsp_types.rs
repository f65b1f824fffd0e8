//! Samples and their counters, named as in the source's dsp_types.rs.

pub type RealSample = f32;

/// The source's is `num_complex::Complex<f32>`, which has the same fields and the same layout.
#[derive(Clone, Copy, Debug, Default, PartialEq)]
#[repr(C)]
pub struct ComplexSample {
    pub re: RealSample,
    pub im: RealSample,
}

impl ComplexSample {
    pub const ZERO: ComplexSample = ComplexSample::new(0.0, 0.0);

    pub const fn new(re: RealSample, im: RealSample) -> ComplexSample {
        ComplexSample { re, im }
    }
}

/// Counts samples, 72,000 a second; a counter ends with 137,438,953,471, after 22.1 days.
pub type SampleCount = i64;
