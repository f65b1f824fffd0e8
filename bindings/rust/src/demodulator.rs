//! The receiver, named as in the source's demodulator.rs.

use crate::burst_consts::{HALF_WINDOW_BITS, TIMESLOT_TYPE4_BITS};
use crate::dsp_types::{ComplexSample, SampleCount};
use crate::ffi;
use crate::rxtx_dev::{RxBurstBits, RxSlotBits};
use crate::{Refusal, TdmaTime, TrainingSequence};

/// Samples per symbol
pub const SPS: usize = 4;

/// Samples per symbol as SampleCount
pub const SAMPLES_SYMBOL: SampleCount = SPS as SampleCount;

/// Input sample rate
pub const SAMPLE_RATE: f64 = 18000.0 * SPS as f64;

/// Zeros that are fed at a time.
const ZEROS: [ComplexSample; 1020] = [ComplexSample::ZERO; 1020];

#[derive(Clone, Copy, Debug, PartialEq, Eq)]
#[repr(u32)]
pub enum Mode {
    /// Hands no slot over: an uplink receiver before the downlink that it follows is locked.
    Idle = 0,
    /// Downlink before slot timing is known: it looks for a synchronization burst.
    DlUnsynchronized = 1,
    /// Downlink with known slot timing.
    Dl = 2,
    /// Uplink, with the slot timing of a downlink receiver.
    Ul = 3,
}

/// A receiver, 27 KB. Nothing is allocated.
#[derive(Clone)]
pub struct Demodulator {
    state: ffi::State,
    past_re: [f32; 2048],
    past_im: [f32; 2048],
    past_abs: [f32; 2048],
    slot: [u8; TIMESLOT_TYPE4_BITS],
    subslot1: [u8; HALF_WINDOW_BITS],
    subslot2: [u8; HALF_WINDOW_BITS],
}

/// What a block of samples came to.
#[derive(Clone, Copy, Debug, PartialEq, Eq)]
pub struct Fed {
    /// So many samples were taken.
    pub taken: usize,
    pub stop: Stop,
}

/// Why no more samples were taken.
#[derive(Clone, Copy, Debug, PartialEq, Eq)]
pub enum Stop {
    /// There are none.
    End,
    /// The last one handed a slot over, which waits to be taken.
    Slot,
    /// The next one is refused.
    Refused(Refusal),
}

/// The bits of the windows of the slot that was handed over last, one byte each: what [`judge`](crate::logger::judge) judges.
#[derive(Clone, Copy, Debug)]
pub struct WindowBits<'a> {
    pub slot: &'a [u8],
    /// Of an uplink receiver, the first half's.
    pub subslot1: &'a [u8],
    /// Of an uplink receiver, the second half's.
    pub subslot2: &'a [u8],
}

impl Demodulator {
    /// A downlink receiver begins with [`Mode::DlUnsynchronized`], an uplink one with [`Mode::Idle`].
    pub fn new(initial_mode: Mode) -> Self {
        Self {
            // SAFETY: it takes a number, and any.
            state: unsafe { ffi::tetra_state_new(initial_mode as u32) },
            past_re: [0.0; 2048],
            past_im: [0.0; 2048],
            past_abs: [0.0; 2048],
            slot: [0; TIMESLOT_TYPE4_BITS],
            subslot1: [0; HALF_WINDOW_BITS],
            subslot2: [0; HALF_WINDOW_BITS],
        }
    }

    /// Process one input sample. Where `sample_counter` is beyond the next one samples are missing: zeros stand in for at
    /// most the last 1,020 of them, and after a longer gap a burst can be handed over under a later slot's number; so
    /// [`feed_zeros`](Self::feed_zeros) in every gap. A row of samples goes much faster by [`feed`](Self::feed).
    pub fn sample(
        &mut self,
        input: ComplexSample,
        sample_counter: SampleCount,
    ) -> Result<(), Refusal> {
        let [re, im, abs] = [&mut self.past_re, &mut self.past_im, &mut self.past_abs]
            .map(|part| part.as_mut_ptr());
        // SAFETY: each part of the past has the 2,048 elements that the function asks for.
        let answered = unsafe {
            ffi::tetra_state_sample(self.state, re, im, abs, input.re, input.im, sample_counter)
        };
        self.state = answered.state;
        Refusal::none(answered.refusal)
    }

    /// Takes samples with the counters `first`, `first + 1`, .., as [`sample`](Self::sample) would: up to one that hands a slot
    /// over, or to the first that is refused. Take the slot, then feed what is left.
    pub fn feed(&mut self, samples: &[ComplexSample], first: SampleCount) -> Fed {
        let [re, im, abs] = [&mut self.past_re, &mut self.past_im, &mut self.past_abs]
            .map(|part| part.as_mut_ptr());
        let parts = samples.as_ptr().cast::<f32>();
        // SAFETY: a sample is two f32 and nothing else; each part of the past has 2,048 elements.
        let fed = unsafe {
            ffi::tetra_state_feed(self.state, re, im, abs, parts, 2 * samples.len(), first)
        };
        self.state = fed.state;
        let stop = match Refusal::of(fed.refusal) {
            Some(refusal) => Stop::Refused(refusal),
            None if fed.slot => Stop::Slot,
            None => Stop::End,
        };
        Fed {
            taken: fed.taken,
            stop,
        }
    }

    /// Takes `count` zeros in the place of missing samples, from the counter `first` on; stops as [`feed`](Self::feed) does.
    pub fn feed_zeros(&mut self, count: usize, first: SampleCount) -> Fed {
        let mut told = Fed {
            taken: 0,
            stop: Stop::End,
        };
        while told.taken < count && told.stop == Stop::End {
            let zeros = &ZEROS[..ZEROS.len().min(count - told.taken)];
            let fed = self.feed(zeros, first + told.taken as SampleCount);
            told = Fed {
                taken: told.taken + fed.taken,
                stop: fed.stop,
            };
        }
        told
    }

    /// Synchronize an uplink demodulator to a downlink demodulator. Both are fed on one axis of counters. The other tracks its
    /// carrier, so give the order again from time to time, as after each slot. The uplink's slot numbers are 2 less.
    pub fn sync_to_demodulator(&mut self, demod: &Demodulator) -> Result<(), Refusal> {
        // SAFETY: both states are such that calls left.
        let answered = unsafe { ffi::tetra_state_follow(self.state, demod.state) };
        self.state = answered.state;
        Refusal::none(answered.refusal)
    }

    pub fn mode(&self) -> Mode {
        match self.state.mode {
            0 => Mode::Idle,
            1 => Mode::DlUnsynchronized,
            2 => Mode::Dl,
            3 => Mode::Ul,
            mode => unreachable!("the library has no mode {mode}"),
        }
    }

    pub fn demodulated_slot_available(&self) -> bool {
        self.state.demodulated_slot_available
    }

    /// The slot that was handed over last, once; `None` where none waits.
    pub fn take_demodulated_slot(&mut self) -> Option<RxSlotBits<'_>> {
        let lent = (
            self.slot.as_mut_ptr(),
            self.subslot1.as_mut_ptr(),
            self.subslot2.as_mut_ptr(),
        );
        let lengths = (self.slot.len(), self.subslot1.len(), self.subslot2.len());
        // SAFETY: each pointer goes with the length of its own array.
        let taken = unsafe {
            ffi::tetra_state_take(
                self.state, lent.0, lengths.0, lent.1, lengths.1, lent.2, lengths.2,
            )
        };
        self.state = taken.state;
        // The lengths are right, so that the one refusal left is that no slot waits.
        Refusal::none(taken.refusal).ok()?;
        Some(RxSlotBits {
            time: TdmaTime::from(&taken.slot),
            closing_counter: taken.slot.closing_counter,
            slot: view(&taken.slot.full, &self.slot),
            subslot1: view(&taken.slot.subslot1, &self.subslot1),
            subslot2: view(&taken.slot.subslot2, &self.subslot2),
        })
    }

    /// To be kept, if at all, when a slot is taken, before more samples are fed.
    pub fn window_bits(&self) -> WindowBits<'_> {
        WindowBits {
            slot: &self.state.full_bits,
            subslot1: &self.state.subslot1_bits[..HALF_WINDOW_BITS],
            subslot2: &self.state.subslot2_bits[..HALF_WINDOW_BITS],
        }
    }
}

/// A burst: a take leaves its bits at the front of the lent bytes.
fn view<'a>(burst: &ffi::Burst, lent: &'a [u8]) -> RxBurstBits<'a> {
    RxBurstBits {
        train_type: TrainingSequence::of(burst.train_type),
        bits: &lent[..burst.burst_len],
        train_errs: burst.train_errs,
        burst_pos: burst.burst_pos,
    }
}
