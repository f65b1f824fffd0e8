//! The call logger's call.

use crate::ffi;
use crate::{Refusal, TrainingSequence};

/// What a window is of.
#[derive(Clone, Copy, Debug, PartialEq, Eq)]
#[repr(u32)]
pub enum SlotType {
    /// Downlink slot, 510 bits
    Dl = 0,
    /// Uplink full slot, 510 bits
    UlFull = 1,
    /// Uplink subslot, 254 bits
    UlSub = 2,
}

/// The burst that was found in a window, with the source's names of its burst finder's fields.
#[derive(Clone, Copy, Debug, PartialEq, Eq)]
pub struct Judged {
    pub train_type: TrainingSequence,
    /// Wrong bits in its training sequence, 0 or 1; 100 where there is no burst.
    pub train_errs: usize,
    /// Its place in the window's bits.
    pub burst_pos: usize,
    /// 510, 462 or 206; 0 where there is no burst.
    pub burst_len: usize,
}

/// Judges the kept bits of a window again, as the receiver judged them
/// ([`window_bits`](crate::demodulator::Demodulator::window_bits)).
pub fn judge(kind: SlotType, bits: &[u8]) -> Result<Judged, Refusal> {
    let mut answer = [0; 6];
    // SAFETY: each pointer goes with the length of its own slice.
    let refusal = unsafe {
        ffi::tetra_judge(
            kind as u32,
            bits.as_ptr(),
            bits.len(),
            answer.as_mut_ptr(),
            answer.len(),
        )
    };
    Refusal::none(refusal)?;
    let [train_type, train_errs, pos_low, pos_high, len_low, len_high] = answer;
    Ok(Judged {
        train_type: TrainingSequence::of(train_type),
        train_errs: train_errs.into(),
        burst_pos: u16::from_le_bytes([pos_low, pos_high]).into(),
        burst_len: u16::from_le_bytes([len_low, len_high]).into(),
    })
}
