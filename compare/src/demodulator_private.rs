//! A child module of the original's demodulator.rs: what is private there and document 01 hands out or judges by.

use super::*;

impl Demodulator {
    pub fn mode(&self) -> Mode {
        self.mode
    }

    /// The counter after the last sample, 0 when new.
    pub fn next_counter(&self) -> SampleCount {
        self.next_input_sample_count
    }

    /// The counter at which the next window closes, unless samples are lost.
    pub fn due(&self) -> SampleCount {
        self.slot_ready_time + CHANNEL_FILTER_TAPS.len() as SampleCount
    }

    /// Errors of the full slot and of the two half slots.
    pub fn errors(&self) -> [usize; 3] {
        [&self.full_slot, &self.subslot1, &self.subslot2].map(|finder| finder.train_errs)
    }
}

/// The finding in a window's bits.
pub struct Finding {
    pub train_type: TrainingSequence,
    pub errors: usize,
    pub place: usize,
    pub length: usize,
}

/// Judges kept bits: kind 0 downlink, 1 uplink full, 2 uplink half.
pub fn judge(kind: u32, bits: &[u8]) -> Finding {
    let mut finder = SlotBurstFinder::new();
    finder.bits.extend_from_slice(bits);
    finder.check_slot(match kind {
        0 => SlotType::Dl,
        1 => SlotType::UlFull,
        _ => SlotType::UlSub,
    });
    Finding {
        train_type: finder.train_type,
        errors: finder.train_errs,
        place: finder.burst_pos,
        length: finder.burst_len,
    }
}
