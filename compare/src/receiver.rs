//! A receiver of the original, and at which counter it closed the window of the slot that it handed over last.

use crate::phy::components::demodulator::{Demodulator, Mode};
use crate::phy::components::dsp_types::{ComplexSample, SampleCount};

/// As many missing samples as the original feeds zeros for.
const MOST_ZEROS: SampleCount = 1020;

/// The original keeps no such counter, and of the zeros that its `sample` feeds none is seen by itself. So a second one is fed
/// the same samples and zeros one by one, and after each it is asked whether that one handed a slot over.
pub struct Receiver {
    original: Demodulator,
    watched: Demodulator,
    closing_counter: SampleCount,
}

impl Receiver {
    pub fn new(mode: Mode) -> Self {
        Self {
            original: Demodulator::new(mode),
            watched: Demodulator::new(mode),
            closing_counter: 0,
        }
    }

    /// The one that answers.
    pub fn original(&self) -> &Demodulator {
        &self.original
    }

    pub fn original_mut(&mut self) -> &mut Demodulator {
        &mut self.original
    }

    /// Of a new receiver 0.
    pub fn closing_counter(&self) -> SampleCount {
        self.closing_counter
    }

    pub fn sample(&mut self, sample: ComplexSample, counter: SampleCount) {
        let first_missing = self.original.next_counter().max(counter - MOST_ZEROS);
        for missing in first_missing..counter {
            self.watch(ComplexSample::ZERO, missing);
        }
        self.watch(sample, counter);
        self.original.sample(sample, counter);
        assert_eq!(self.watched.due(), self.original.due());
    }

    fn watch(&mut self, sample: ComplexSample, counter: SampleCount) {
        self.watched.process_sample(sample, counter);
        if self.watched.take_demodulated_slot().is_some() {
            self.closing_counter = counter;
        }
    }

    pub fn sync_to(&mut self, leader: &Self) {
        self.original.sync_to_demodulator(&leader.original);
        self.watched.sync_to_demodulator(&leader.watched);
    }
}
