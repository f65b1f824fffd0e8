//! Slots that were received or are to be sent, named as in the source's rxtx_dev.rs.

use crate::dsp_types::SampleCount;
use crate::{TdmaTime, TrainingSequence};

/// A burst that was found.
#[derive(Debug, Default)]
pub struct RxBurstBits<'a> {
    pub train_type: TrainingSequence,
    /// Its own bits, one byte each; none where no burst was found.
    pub bits: &'a [u8],
    /// Wrong bits in its training sequence, 0 or 1; 100 where no burst was found. (The source keeps it to itself.)
    pub train_errs: usize,
    /// Its place in the window's bits. (The source keeps it to itself.)
    pub burst_pos: usize,
}

#[derive(Debug, Default)]
pub struct RxSlotBits<'a> {
    /// Number of slot received
    pub time: TdmaTime,
    /// Counter of the sample, or of the zero fed for a missing one, at which the slot's window closed; the filter's delay, 16
    /// samples, is not taken off. (The source has none.)
    pub closing_counter: SampleCount,
    /// Burst received in full slot
    pub slot: RxBurstBits<'a>,
    /// Burst received in subslot 1
    pub subslot1: RxBurstBits<'a>,
    /// Burst received in subslot 2
    pub subslot2: RxBurstBits<'a>,
}

#[derive(Debug, Default)]
pub struct TxSlotBits<'a> {
    /// Number of slot to transmit
    pub time: TdmaTime,
    /// Burst to transmit in full slot: 510 bits, one byte each
    pub slot: Option<&'a [u8]>,
}
