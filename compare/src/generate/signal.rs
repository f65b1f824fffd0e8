//! Carriers sent by the original's own modulator, and the way they take to the receiver.

use super::random::Random;
use crate::bursts::{self, Burst, Wanted};
use crate::phy::components::burst_consts::*;
use crate::phy::components::dsp_types::ComplexSample;
use crate::phy::components::modulator::{Mode, Modulator};
use crate::phy::components::train_consts::*;
use crate::phy::traits::rxtx_dev::TxSlotBits;
use crate::refusals::LARGEST_PART;
use crate::session::{FULL_BITS, HALF_BITS};
use crate::TdmaTime;

/// What a carrier sends next.
pub type BurstSource = fn(&mut Random) -> Burst;

/// A burst of the downlink, every second one for synchronization, some with flipped bits.
pub fn downlink_burst(random: &mut Random) -> Burst {
    let wanted = [
        Wanted::Sync,
        Wanted::Sync,
        Wanted::Normal(1),
        Wanted::Normal(2),
    ];
    let wanted = random.pick(&wanted);
    let mut burst = built(random, wanted);
    flip_some(random, &mut burst);
    burst
}

pub fn sync_burst(random: &mut Random) -> Burst {
    built(random, Wanted::Sync)
}

fn built(random: &mut Random, wanted: Wanted) -> Burst {
    let [first, middle, last] = wanted.lengths().map(|length| random.bits(length));
    bursts::build(wanted, [&first, &middle, &last]).expect("blocks of the right lengths")
}

/// An uplink slot: a normal burst, or control bursts in either half, in both or in none.
pub fn uplink_slot(random: &mut Random) -> Burst {
    let mut slot = [0; FULL_BITS];
    if random.one_in(2) {
        let sequence = random.pick(&[&SEQ_NORM1_AS_ARR, &SEQ_NORM2_AS_ARR]);
        plant(
            &mut slot,
            uplink_place(random) + NUB_TRAINING_OFFSET,
            sequence,
        );
    } else {
        for half in [0, HALF_BITS + 2] {
            if random.one_in(2) {
                let place = half + uplink_place(random) + CUB_TRAINING_OFFSET;
                plant(&mut slot, place, &SEQ_EXT_AS_ARR);
            }
        }
    }
    flip_some(random, &mut slot);
    slot
}

/// Where in its window an uplink burst begins: the first and last places often.
fn uplink_place(random: &mut Random) -> usize {
    let any = random.below(25) as usize;
    2 * random.pick(&[0, 23, 24, any, any, any])
}

fn plant(slot: &mut Burst, place: usize, sequence: &[u8]) {
    slot[place..place + sequence.len()].copy_from_slice(sequence);
}

/// Flips a few bits around the training sequences.
fn flip_some(random: &mut Random, bits: &mut Burst) {
    for _ in 0..random.pick(&[0, 0, 0, 0, 1, 1, 4]) {
        let at = random.between(88, 300) as usize;
        bits[at] = 1 - bits[at];
    }
}

/// Bursts back to back, as samples.
pub struct Carrier {
    modulator: Modulator,
    burst: BurstSource,
    counter: i64,
    slot: i32,
    bits: Burst,
}

impl Carrier {
    pub fn new(random: &mut Random, burst: BurstSource) -> Self {
        Self {
            modulator: Modulator::new(Mode::Dl),
            burst,
            counter: 0,
            slot: 0,
            bits: burst(random),
        }
    }

    pub fn next(&mut self, random: &mut Random) -> ComplexSample {
        loop {
            let slot = TxSlotBits {
                time: TdmaTime::from_int(self.slot),
                slot: Some(&self.bits),
            };
            if let Ok(sample) = self.modulator.sample(self.counter, &slot) {
                self.counter += 1;
                return sample;
            }
            self.slot += 1;
            self.bits = (self.burst)(random);
        }
    }
}

/// A carrier through gain, noise, a turning phase and a clock that runs faster or slower.
pub struct Channel {
    carrier: Carrier,
    pub gain: f32,
    /// The gain grows by this factor with each sample.
    pub fading: f32,
    /// Beside a carrier of 1.
    pub noise: f32,
    /// Samples gained with each sample.
    pub drift: f32,
    /// The phase's turn with each sample.
    turn: ComplexSample,
    phase: ComplexSample,
    /// Samples until the next spikes.
    spikes: Vec<i64>,
    last: [ComplexSample; 2],
    between: f32,
}

impl Channel {
    pub fn new(carrier: Carrier, gain: f32) -> Self {
        let still = ComplexSample { re: 1.0, im: 0.0 };
        Self {
            carrier,
            gain,
            fading: 1.0,
            noise: 0.0,
            drift: 0.0,
            turn: still,
            phase: still,
            spikes: Vec::new(),
            last: [ComplexSample::ZERO; 2],
            between: 0.0,
        }
    }

    pub fn set_turn(&mut self, radians: f32) {
        self.turn = ComplexSample {
            re: radians.cos(),
            im: radians.sin(),
        };
    }

    /// Puts spikes so many samples away, in place of those set before.
    pub fn spike(&mut self, away: &[i64]) {
        self.spikes = away.to_vec();
    }

    /// Lets samples go unheard.
    pub fn pass(&mut self, random: &mut Random, samples: i64) {
        for _ in 0..samples {
            self.next(random);
        }
    }

    pub fn next(&mut self, random: &mut Random) -> ComplexSample {
        self.between += 1.0 + self.drift;
        while self.between >= 1.0 {
            self.last = [self.last[1], self.carrier.next(random)];
            self.between -= 1.0;
        }
        self.gain = (self.gain * self.fading).min(LARGEST_PART / 2.0);
        self.phase = self.phase * self.turn;
        let sent = (1.0 - self.between) * self.last[0] + self.between * self.last[1];
        let noise = ComplexSample {
            re: self.noise * random.unit(),
            im: self.noise * random.unit(),
        };
        let mut heard = self.gain * (sent * self.phase + noise);
        self.spikes.iter_mut().for_each(|away| *away -= 1);
        if self.spikes.contains(&0) {
            heard.re = LARGEST_PART;
        }
        ComplexSample {
            re: heard.re.clamp(-LARGEST_PART, LARGEST_PART),
            im: heard.im.clamp(-LARGEST_PART, LARGEST_PART),
        }
    }
}
