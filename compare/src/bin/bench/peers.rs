//! liquid-dsp beside this library, on the same samples: its filter, and its symbol timing with matched filter and decisions,
//! which is as much of a receiver as it has. It finds no slots.

use crate::modem::{best, downlink, receives_from_c, Slot, FEW, SLOT};
use crate::print;
use crate::signal::{block, input, times, Parts, SAMPLES};
use compare::phy::components::modem_common::CHANNEL_FILTER_TAPS;
use std::hint::black_box;

/// liquid-dsp's functions (liquid/liquid.h). A complex number passes as a struct of its parts, on x86-64 in the same way.
mod liquid {
    use std::ffi::{c_char, c_int, c_uint, c_void};

    #[derive(Clone, Copy, Default)]
    #[repr(C)]
    pub struct Complex {
        pub re: f32,
        pub im: f32,
    }

    pub type Object = *mut c_void;

    #[rustfmt::skip]
    #[link(name = "liquid")]
    extern "C" {
        pub fn liquid_getopt_str2firfilt(name: *const c_char) -> c_int;
        pub fn liquid_getopt_str2mod(name: *const c_char) -> c_uint;
        pub fn firfilt_crcf_create(taps: *const f32, count: c_uint) -> Object;
        pub fn firfilt_crcf_execute_block(filter: Object, samples: *const Complex, count: c_uint, out: *mut Complex) -> c_int;
        pub fn firfilt_crcf_destroy(filter: Object) -> c_int;
        pub fn symsync_crcf_create_rnyquist(filter: c_int, per_symbol: c_uint, delay: c_uint, roll_off: f32, phases: c_uint) -> Object;
        pub fn symsync_crcf_execute(timing: Object, samples: *const Complex, count: c_uint, out: *mut Complex, out_count: *mut c_uint) -> c_int;
        pub fn symsync_crcf_destroy(timing: Object) -> c_int;
        pub fn modem_create(scheme: c_uint) -> Object;
        pub fn modem_demodulate(modem: Object, sample: Complex, symbol: *mut c_uint) -> c_int;
        pub fn modem_destroy(modem: Object) -> c_int;
    }
}

use liquid::Complex;

/// Filters samples from a new line of 32 taps, those of this library's filter.
fn filter(samples: &[Complex], out: &mut [Complex]) {
    let taps: Vec<f32> = CHANNEL_FILTER_TAPS.iter().rev().chain(&CHANNEL_FILTER_TAPS).copied().collect();
    assert!(out.len() == samples.len());
    unsafe {
        let filter = liquid::firfilt_crcf_create(taps.as_ptr(), taps.len() as u32);
        liquid::firfilt_crcf_execute_block(filter, samples.as_ptr(), samples.len() as u32, out.as_mut_ptr());
        liquid::firfilt_crcf_destroy(filter);
    }
}

/// The sums are added up in another order, so the outputs are close and not the same.
fn close(ours: &Parts, theirs: &[Complex]) -> bool {
    let near = |a: f32, b: f32| (a - b).abs() < 1e-5;
    ours.re.iter().zip(&ours.im).zip(theirs).all(|((&re, &im), out)| near(re, out.re) && near(im, out.im))
}

fn bench_filters() {
    let names = ["filter: this library, 256 samples a call", "filter: liquid-dsp's `firfilt_crcf`, 32 taps"];
    let from = input();
    let samples: Vec<_> = from.re.iter().zip(&from.im).map(|(&re, &im)| Complex { re, im }).collect();
    let mut ours = Parts::zeros();
    let mut theirs = vec![Complex::default(); SAMPLES];
    let times = times(|i, at| {
        if i == 0 {
            let (re, im) = (&from.re[at.clone()], &from.im[at.clone()]);
            block(black_box(re), black_box(im), &mut ours.re[at.clone()], &mut ours.im[at]);
        } else {
            filter(black_box(&samples[at.clone()]), &mut theirs[at]);
        }
    });
    assert!(close(&ours, &theirs), "liquid-dsp filters otherwise");
    print(names, times, SAMPLES);
}

/// The symbols of samples, two bits each. The matched filter is as long as this library's, eight symbols.
fn decides(samples: &[Complex]) -> Vec<u32> {
    let mut symbols = Vec::with_capacity(samples.len());
    let mut found = [Complex::default(); SLOT];
    unsafe {
        let rrc = liquid::liquid_getopt_str2firfilt(c"rrcos".as_ptr());
        let timing = liquid::symsync_crcf_create_rnyquist(rrc, 4, 4, 0.35, 32);
        let modem = liquid::modem_create(liquid::liquid_getopt_str2mod(c"pi4dqpsk".as_ptr()));
        for block in samples.chunks(SLOT) {
            let mut count = 0;
            liquid::symsync_crcf_execute(timing, block.as_ptr(), block.len() as u32, found.as_mut_ptr(), &mut count);
            for &sample in &found[..count as usize] {
                let mut symbol = 0;
                liquid::modem_demodulate(modem, sample, &mut symbol);
                symbols.push(symbol);
            }
        }
        liquid::modem_destroy(modem);
        liquid::symsync_crcf_destroy(timing);
    }
    symbols
}

/// Whether a slot that this library received is among the symbols.
fn holds(symbols: &[u32], Slot(_, _, bits): &Slot) -> bool {
    let wanted: Vec<_> = bits.chunks_exact(2).map(|pair| 2 * pair[0] as u32 + pair[1] as u32).collect();
    symbols.windows(wanted.len()).any(|window| window == wanted)
}

fn bench_receivers() {
    let names = [
        "receiver, locked, a few slots: this library from C",
        "symbols alone: liquid-dsp's `symsync_crcf`, pi/4-DQPSK",
    ];
    let mut air = downlink();
    air.truncate(2 * FEW);
    let samples: Vec<_> = air.chunks_exact(2).map(|sample| Complex { re: sample[0], im: sample[1] }).collect();
    let last = receives_from_c(&air, 1).pop().unwrap();
    assert!(holds(&decides(&samples), &last), "liquid-dsp decides otherwise");
    let times = best(|i| {
        if i == 0 {
            black_box(receives_from_c(&air, 1));
        } else {
            black_box(decides(&samples));
        }
    });
    print(names, times, samples.len());
}

pub fn bench() {
    bench_filters();
    bench_receivers();
}
