//! The filter and the magnitude, over a downlink. The outputs must be equal bit for bit.

use crate::print;
use compare::generate::random::Random;
use compare::generate::signal::{downlink_burst, Carrier, Channel};
use compare::phy::components::dsp_types::ComplexSample;
use compare::phy::components::fir::FirComplexSym;
use compare::phy::components::modem_common::CHANNEL_FILTER_TAPS;
use compare::stand_ins;
use std::hint::black_box;
use std::ops::Range;
use std::time::{Duration, Instant};

/// A thousand slots, ten at a time: a run so short is seldom interrupted, and the best of a few is not.
pub const SAMPLES: usize = 1_020_000;
const PIECE: usize = 10_200;
const RUNS: usize = 7;

/// This library's functions (crates/bench_signal). A slice passes as a pointer and then its length.
mod library {
    type In = *const f32;
    type Out = *mut f32;

    pub type Filter = unsafe extern "C" fn(In, usize, In, usize, Out, usize, Out, usize);

    #[rustfmt::skip]
    extern "C" {
        pub fn bench_filter_single(re: In, _: usize, im: In, _: usize, out_re: Out, _: usize, out_im: Out, _: usize);
        pub fn bench_filter_block(re: In, _: usize, im: In, _: usize, out_re: Out, _: usize, out_im: Out, _: usize);
        pub fn bench_magnitude(re: In, _: usize, im: In, _: usize, out: Out, _: usize);
    }
}

/// Samples as two slices of parts.
#[derive(Clone)]
pub struct Parts {
    pub re: Vec<f32>,
    pub im: Vec<f32>,
}

impl Parts {
    pub fn zeros() -> Self {
        Self {
            re: vec![0.0; SAMPLES],
            im: vec![0.0; SAMPLES],
        }
    }
}

/// A downlink that the original's modulator sends, with noise.
pub fn input() -> Parts {
    let mut random = Random::new(1);
    let mut channel = Channel::new(Carrier::new(&mut random, downlink_burst), 1.0);
    channel.noise = 0.1;
    let mut parts = Parts::zeros();
    for (re, im) in parts.re.iter_mut().zip(&mut parts.im) {
        let sample = channel.next(&mut random);
        *re = sample.re;
        *im = sample.im;
    }
    parts
}

/// Filters samples from a new line.
type Filter = fn(&[f32], &[f32], &mut [f32], &mut [f32]);

fn original(re: &[f32], im: &[f32], out_re: &mut [f32], out_im: &mut [f32]) {
    let mut line = FirComplexSym::new(CHANNEL_FILTER_TAPS.len());
    let outs = out_re.iter_mut().zip(out_im);
    for ((&re, &im), (out_re, out_im)) in re.iter().zip(im).zip(outs) {
        let out = line.sample(&CHANNEL_FILTER_TAPS, ComplexSample { re, im });
        *out_re = out.re;
        *out_im = out.im;
    }
}

fn single(re: &[f32], im: &[f32], out_re: &mut [f32], out_im: &mut [f32]) {
    filter(library::bench_filter_single, re, im, out_re, out_im);
}

pub fn block(re: &[f32], im: &[f32], out_re: &mut [f32], out_im: &mut [f32]) {
    filter(library::bench_filter_block, re, im, out_re, out_im);
}

fn filter(by: library::Filter, re: &[f32], im: &[f32], out_re: &mut [f32], out_im: &mut [f32]) {
    let (n, m) = (re.len(), im.len());
    let (out_n, out_m) = (out_re.len(), out_im.len());
    let (out_re, out_im) = (out_re.as_mut_ptr(), out_im.as_mut_ptr());
    // Each pointer goes with its slice's length, and the function requires no more.
    unsafe { by(re.as_ptr(), n, im.as_ptr(), m, out_re, out_n, out_im, out_m) }
}

type Magnitude = fn(&[f32], &[f32], &mut [f32]);

fn hypot(re: &[f32], im: &[f32], out: &mut [f32]) {
    each(re, im, out, f32::hypot);
}

fn stand_in(re: &[f32], im: &[f32], out: &mut [f32]) {
    each(re, im, out, |re, im| {
        stand_ins::magnitude(ComplexSample { re, im })
    });
}

fn each(re: &[f32], im: &[f32], out: &mut [f32], magnitude: impl Fn(f32, f32) -> f32) {
    for ((&re, &im), out) in re.iter().zip(im).zip(out) {
        *out = magnitude(re, im);
    }
}

fn magnitude(re: &[f32], im: &[f32], out: &mut [f32]) {
    let (n, m) = (re.len(), im.len());
    // As in `filter`.
    unsafe { library::bench_magnitude(re.as_ptr(), n, im.as_ptr(), m, out.as_mut_ptr(), out.len()) }
}

/// The times of N competitors over all pieces, of each piece the best. `run` takes a competitor and a piece.
pub fn times<const N: usize>(mut run: impl FnMut(usize, Range<usize>)) -> [Duration; N] {
    let mut total = [Duration::ZERO; N];
    for start in (0..SAMPLES).step_by(PIECE) {
        let mut best = [Duration::MAX; N];
        for _ in 0..RUNS {
            for (i, best) in best.iter_mut().enumerate() {
                let before = Instant::now();
                run(i, start..start + PIECE);
                *best = before.elapsed().min(*best);
            }
        }
        for (total, best) in total.iter_mut().zip(best) {
            *total += best;
        }
    }
    total
}

fn same_bits(a: &[f32], b: &[f32]) -> bool {
    a.iter().zip(b).all(|(a, b)| a.to_bits() == b.to_bits())
}

/// Times the filters and returns what they make of the samples.
fn bench_filters(from: &Parts) -> Parts {
    let names = [
        "filter: the original's `sample`",
        "filter: this library, one sample a call",
        "filter: this library, 256 samples a call",
    ];
    let filters: [Filter; 3] = [original, single, block];
    let mut outs = filters.map(|_| Parts::zeros());
    let times = times(|i, at| {
        let (re, im) = (&from.re[at.clone()], &from.im[at.clone()]);
        let (out_re, out_im) = (&mut outs[i].re[at.clone()], &mut outs[i].im[at]);
        filters[i](black_box(re), black_box(im), out_re, out_im);
    });
    let [expected, others @ ..] = &outs;
    for out in others {
        assert!(same_bits(&out.re, &expected.re) && same_bits(&out.im, &expected.im));
    }
    print(names, times, SAMPLES);
    expected.clone()
}

fn bench_magnitudes(from: &Parts) {
    let names = [
        "magnitude: the machine's `hypot`",
        "magnitude: this library, exact",
        "magnitude: exact, in Rust (stand_ins.rs)",
    ];
    let magnitudes: [Magnitude; 3] = [hypot, magnitude, stand_in];
    let mut outs = magnitudes.map(|_| vec![0.0; SAMPLES]);
    let times = times(|i, at| {
        let (re, im) = (&from.re[at.clone()], &from.im[at.clone()]);
        magnitudes[i](black_box(re), black_box(im), &mut outs[i][at]);
    });
    assert!(same_bits(&outs[1], &outs[2]));
    print(names, times, SAMPLES);
}

pub fn bench() {
    let filtered = bench_filters(&input());
    bench_magnitudes(&filtered);
}
