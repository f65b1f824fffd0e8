//! The sender, named as in the source's modulator.rs.

use crate::dsp_types::{ComplexSample, SampleCount};
use crate::ffi;
use crate::rxtx_dev::TxSlotBits;
use crate::Refusal;

/// What a sample is refused with; at the end of a slot `Error::NeedMoreData`.
pub use crate::Refusal as Error;

/// Output sample rate
pub const SAMPLE_RATE: f64 = crate::demodulator::SAMPLE_RATE;

#[derive(Clone, Copy, Debug, PartialEq, Eq)]
pub enum Mode {
    /// Downlink modulation.
    Dl,
}

/// A sender, 260 bytes. Slot n is sent with the counters from 1,020 n - 16 on.
#[derive(Clone)]
pub struct Modulator {
    sender: ffi::Sender,
}

/// What a block of sent samples came to.
#[derive(Clone, Copy, Debug, PartialEq, Eq)]
pub struct Sent {
    /// So many samples were written.
    pub count: usize,
    /// What the next sample is refused with, if it is.
    pub refusal: Option<Refusal>,
}

impl Modulator {
    pub fn new(mode: Mode) -> Self {
        match mode {
            // SAFETY: it takes nothing.
            Mode::Dl => Self {
                sender: unsafe { ffi::tetra_sender_new() },
            },
        }
    }

    /// Produce one output sample. Before the slot's first counter it is silence, behind its last one it is refused with
    /// [`Error::NeedMoreData`].
    pub fn sample(
        &mut self,
        sample_counter: SampleCount,
        tx_slot: &TxSlotBits,
    ) -> Result<ComplexSample, Error> {
        let (slot, has_bits, bits) = parts(tx_slot);
        // SAFETY: the pointer goes with its slice's length.
        let sent = unsafe {
            ffi::tetra_send_sample(
                self.sender,
                sample_counter,
                slot,
                has_bits,
                bits.as_ptr(),
                bits.len(),
            )
        };
        self.sender = sent.sender;
        Refusal::none(sent.refusal)?;
        Ok(ComplexSample::new(sent.re, sent.im))
    }

    /// Sends samples with the counters `first`, `first + 1`, .., as [`sample`](Self::sample) would: as many as there is room
    /// for, or up to the first that is refused. What is behind them in `out` is left as it was.
    pub fn block(
        &mut self,
        first: SampleCount,
        tx_slot: &TxSlotBits,
        out: &mut [ComplexSample],
    ) -> Sent {
        let (slot, has_bits, bits) = parts(tx_slot);
        let (room, room_len) = (out.as_mut_ptr().cast::<f32>(), 2 * out.len());
        // SAFETY: as above; a sample is two f32 and nothing else.
        let sent = unsafe {
            ffi::tetra_send(
                self.sender,
                first,
                slot,
                has_bits,
                bits.as_ptr(),
                bits.len(),
                room,
                room_len,
            )
        };
        self.sender = sent.sender;
        Sent {
            count: sent.count,
            refusal: Refusal::of(sent.refusal),
        }
    }
}

/// A slot as the library takes it: its number, whether it has bits, and the bits.
fn parts<'a>(tx_slot: &TxSlotBits<'a>) -> (u32, u32, &'a [u8]) {
    (
        tx_slot.time.number(),
        u32::from(tx_slot.slot.is_some()),
        tx_slot.slot.unwrap_or_default(),
    )
}
