//! Receiver lists: a downlink heard well or badly, with and without gaps, and an uplink that follows it.

use super::random::Random;
use super::signal::{downlink_burst, sync_burst, uplink_slot, BurstSource, Carrier, Channel};
use super::{wrong_length, Lines, BAD_COUNTERS, SLOT_SAMPLES};
use crate::calls::RECEIVERS;
use crate::phy::components::demodulator::{Demodulator, Mode};
use crate::phy::components::dsp_types::ComplexSample;
use crate::refusals::{LARGEST_COUNTER, LARGEST_PART};
use crate::session::{hex, Session, FULL_BITS, HALF_BITS};
use std::{iter, mem};

/// A list in the making. Receivers 0 and 2 hear the downlink, 1 and 3 the uplink.
struct Scene {
    random: Random,
    downlink: Channel,
    uplink: Channel,
    /// How many samples the uplink's slots begin after the downlink's.
    late: i64,
    counter: i64,
    lines: Vec<String>,
    /// Makes the calls as they are written, so that they can aim at what the receivers do.
    session: Session,
}

/// The kinds and their stretches. `waiting` is a part of the kind `closings` alone.
const KINDS: [(&str, fn(&mut Scene)); 12] = [
    ("clean", Scene::clean),
    ("noisy", Scene::noisy),
    ("drifting", Scene::drifting),
    ("fading", Scene::fading),
    ("spikes", Scene::spikes),
    ("loss", Scene::loss),
    ("waiting", Scene::waiting),
    ("gaps", Scene::gaps),
    ("refused", Scene::refused),
    ("uplink", Scene::uplink),
    ("leaders", Scene::leaders),
    ("mixed", Scene::mixed),
];

pub fn any_kind(random: &mut Random) -> &'static str {
    random.pick(&KINDS).0
}

pub fn lines(kind: &str, random: Random) -> Option<Lines> {
    let (_, stretch) = *KINDS.iter().find(|(name, _)| *name == kind)?;
    let mut scene = match kind {
        "leaders" => Scene::new(random, sync_burst, sync_burst),
        _ => Scene::new(random, downlink_burst, uplink_slot),
    };
    let stretches = iter::repeat_with(move || {
        stretch(&mut scene);
        mem::take(&mut scene.lines)
    });
    Some(Box::new(stretches.flatten()))
}

impl Scene {
    fn new(mut random: Random, downlink: BurstSource, uplink: BurstSource) -> Self {
        let gain = random.pick(&[0.001, 0.3, 1.0, 1.0, 30.0, 500.0]);
        let mut downlink = Channel::new(Carrier::new(&mut random, downlink), gain);
        let mut uplink = Channel::new(Carrier::new(&mut random, uplink), gain);
        let into_slot = random.between(0, SLOT_SAMPLES - 1);
        downlink.pass(&mut random, into_slot);
        uplink.pass(&mut random, into_slot);
        let mut scene = Self {
            random,
            downlink,
            uplink,
            late: 0,
            counter: 0,
            lines: Vec::new(),
            session: Session::default(),
        };
        for (receiver, mode) in [1, 0, 2, 3].iter().enumerate() {
            scene.call(format!("new {receiver} {mode}"));
        }
        scene
    }

    fn clean(&mut self) {
        self.hear(&[0], 700);
        self.take(0);
    }

    fn noisy(&mut self) {
        if self.random.one_in(5) {
            self.downlink.noise = self.random.pick(&[0.0, 0.1, 0.2, 0.3, 0.5, 1.0]);
        }
        self.clean();
    }

    fn drifting(&mut self) {
        if self.random.one_in(30) {
            self.anew();
        }
        if self.random.one_in(15) {
            self.downlink.drift = self.random.pick(&[0.0001, 0.0003, 0.0006]) * self.random.unit();
            self.downlink.noise = self.random.pick(&[0.0, 0.1, 0.2]);
            self.downlink.set_turn(0.1 * self.random.unit());
        }
        self.clean();
    }

    /// Down to subnormal samples and zeros, and up again.
    fn fading(&mut self) {
        self.downlink.fading = self.random.pick(&[0.9, 0.99, 0.999, 1.0, 1.001, 1.01, 1.1]);
        if self.downlink.gain < f32::MIN_POSITIVE && self.random.one_in(3) {
            self.downlink.gain = self.random.pick(&[1e-35, 0.1, 1.0]);
        }
        self.clean();
    }

    /// A weak carrier under pairs of spikes whose shares in the timing sums cancel, but for rounding.
    fn spikes(&mut self) {
        self.downlink.gain = self.random.pick(&[1e-2, 1e-3, 1e-4]);
        self.downlink.noise = self.random.pick(&[0.1, 0.2]);
        let (first, apart) = (self.random.between(1, 300), self.random.between(9, 200));
        self.downlink.spike(&[first, first + 4 * apart + 2]);
        self.clean();
    }

    /// The carrier for a while, then about a hundred slots of silence, most of it in gaps.
    fn loss(&mut self) {
        let takes = self.random.pick(&[1, 1, 3, 100]);
        for _ in 0..15 {
            let locked = self.mode(0);
            self.hear(&[0], 700);
            if self.mode(0) != locked || self.random.one_in(takes) {
                self.take(0);
            }
        }
        for _ in 0..self.random.between(85, 125) {
            self.counter += self.random.pick(&[1018, 1019, 1020]);
            self.hear(&[0], 1);
            if self.random.one_in(takes) {
                self.take(0);
            }
        }
    }

    /// A hundred slots in gaps, so that the lock is lost, and the carrier until it is found and for a while: of the slots most
    /// wait until others have closed, or until the receiver searches, or has found.
    fn waiting(&mut self) {
        for _ in 0..self.random.between(95, 120) {
            let to_due = self.due(0) - self.counter;
            self.counter += match self.random.below(4) {
                // The first zero and the sample close a window each.
                0 => to_due + SLOT_SAMPLES,
                _ => self.random.pick(&[1018, 1019, 1020, 2040]),
            };
            self.hear(&[0, 1], 1);
            self.leave_or_take(10);
        }
        while self.mode(0) != Some(Mode::Dl) {
            self.hear(&[0], 700);
            self.leave_or_take(5);
        }
        for _ in 0..self.random.below(6) {
            self.hear(&[0, 1], 400);
            self.leave_or_take(2);
        }
    }

    /// Most often nothing: else takes, a refused one, or an order to follow.
    fn leave_or_take(&mut self, left: u64) {
        if !self.random.one_in(left) {
            return;
        }
        let receiver = self.random.pick(&[0, 0, 1]);
        match self.random.below(4) {
            0 => self.call("f 1 0".into()),
            1 => {
                let refused = self.refused_take(receiver);
                self.call(refused);
            }
            _ => self.take(receiver),
        }
    }

    fn gaps(&mut self) {
        self.clean();
        let searching = self.mode(0) == Some(Mode::DlUnsynchronized);
        let to_due = self.due(0) - self.counter + self.random.between(-1, 1);
        let gap = match self.random.below(if searching { 8 } else { 20 }) {
            // The gap ends, or the zeros fed for it begin, as a window is due.
            0 => to_due.max(0),
            1 => (to_due + SLOT_SAMPLES).max(0),
            2 => self.random.pick(&[1019, 1020, 1021, 2039, 2040, 2041]),
            3 => self.random.pick(&[10_000, 1 << 20, 1 << 30, 1 << 34]),
            4 => self.random.between(20, 5000),
            5..=7 => self.random.between(1, 20),
            _ => 0,
        };
        self.counter += gap;
        if !self.random.one_in(12) {
            // Only the samples are lost: the slots keep their times.
            self.downlink.pass(&mut self.random, gap % SLOT_SAMPLES);
        }
        if self.random.one_in(60) {
            let near_the_end = LARGEST_COUNTER - self.random.between(0, 4000);
            self.counter = self.counter.max(near_the_end);
        }
        if self.counter > LARGEST_COUNTER || self.random.one_in(20) {
            self.counter = 0;
            self.anew();
        }
    }

    /// A clean downlink with refused calls in between.
    fn refused(&mut self) {
        self.clean();
        for _ in 0..self.random.below(5) {
            self.refused_call(0);
        }
    }

    /// A leader and a follower, each made anew at times.
    fn uplink(&mut self) {
        self.hear(&[0, 1], 400);
        self.take(0);
        self.take(1);
        match self.random.below(60) {
            0 => self.anew(),
            1 => self.call("new 1 0".into()),
            2 => self.call("new 1 3".into()),
            3 => self.call("f 1 1".into()),
            4 => self.call("f 0 1".into()),
            5..=12 => self.delay_uplink(24),
            13..=40 => self.call("f 1 0".into()),
            _ => {}
        }
    }

    /// Two leaders that lock a slot apart, followed by turns: the follower's reference jumps to and fro by about
    /// a slot. Of the samples between the turns the follower hears the last alone.
    fn leaders(&mut self) {
        self.counter = 0;
        self.anew();
        self.call("new 1 0".into());
        self.call("new 3 1".into());
        self.delay_uplink(3);
        while self.mode(0) != Some(Mode::Dl) {
            self.hear(&[0], 700);
        }
        for _ in 0..60 {
            self.hear(&[0, 3], 700);
            self.hear(&[0, 1, 3], 1);
            self.take(1);
            let leader = self.random.pick(&[0, 3]);
            self.call(format!("f 1 {leader}"));
        }
    }

    /// Four receivers in any mode, any of the calls above.
    fn mixed(&mut self) {
        let all = [0, 1, 2, 3];
        let heard_by = match self.random.below(10) {
            0 => &all[..2],
            1 => &all[1..],
            _ => &all,
        };
        self.hear(heard_by, 200);
        let (one, other) = (self.receiver(), self.receiver());
        match self.random.below(100) {
            0 => self.counter += self.random.between(0, 3000),
            1..=3 => {
                let mode = self.random.below(4);
                self.call(format!("new {one} {mode}"));
            }
            4..=24 => self.call(format!("f {one} {other}")),
            25..=30 => self.refused_call(one),
            _ => self.take(one),
        }
    }

    /// Receiver 0 anew, somewhere else in the carrier's slots.
    fn anew(&mut self) {
        let unheard = self.random.between(0, SLOT_SAMPLES - 1);
        self.downlink.pass(&mut self.random, unheard);
        self.uplink.pass(&mut self.random, unheard);
        self.call("new 0 1".into());
    }

    /// Up to `longest` samples for each of these receivers; often no more once a window is due or has closed.
    fn hear(&mut self, receivers: &[usize], longest: i64) {
        for _ in 0..self.random.between(1, longest) {
            let before = self.states();
            let heard = [
                self.downlink.next(&mut self.random),
                self.uplink.next(&mut self.random),
            ];
            for r in receivers {
                self.call(line(*r, self.counter, heard[r % 2]));
            }
            self.counter += 1;
            let due = receivers.iter().any(|r| self.due(*r) == self.counter);
            if (due || self.states() != before) && self.random.one_in(2) {
                break;
            }
        }
    }

    /// Lets the uplink's slots begin up to `latest` samples after the downlink's.
    fn delay_uplink(&mut self, latest: i64) {
        let late = self.random.between(0, latest);
        let unheard = (self.late - late).rem_euclid(SLOT_SAMPLES);
        self.uplink.pass(&mut self.random, unheard);
        self.late = late;
    }

    fn take(&mut self, receiver: usize) {
        self.call(format!("t {receiver} {FULL_BITS} {HALF_BITS} {HALF_BITS}"));
    }

    fn call(&mut self, line: String) {
        self.session.answer(&line);
        self.lines.push(line);
    }

    fn mode(&self, receiver: usize) -> Option<Mode> {
        self.session.receiver(receiver).map(Demodulator::mode)
    }

    /// The counter at which a receiver's next window closes, if no samples are lost.
    fn due(&self, receiver: usize) -> i64 {
        self.session.receiver(receiver).map_or(0, Demodulator::due)
    }

    /// Mode and due counter of each receiver.
    fn states(&self) -> [(Option<Mode>, i64); RECEIVERS] {
        std::array::from_fn(|receiver| (self.mode(receiver), self.due(receiver)))
    }

    fn receiver(&mut self) -> usize {
        self.random.below(RECEIVERS as u64) as usize
    }

    /// An order, a take or a sample that is refused.
    fn refused_call(&mut self, receiver: usize) {
        let line = match self.random.below(8) {
            0 => format!("f {receiver} {receiver}"),
            1 => self.refused_take(receiver),
            _ => self.refused_sample(receiver),
        };
        self.call(line);
    }

    /// A take with a wrong length.
    fn refused_take(&mut self, receiver: usize) -> String {
        let mut lengths = [FULL_BITS, HALF_BITS, HALF_BITS];
        let which = self.random.below(3) as usize;
        lengths[which] = wrong_length(&mut self.random, lengths[which]);
        let [full, half1, half2] = lengths;
        format!("t {receiver} {full} {half1} {half2}")
    }

    /// A sample with one or several reasons to be refused.
    fn refused_sample(&mut self, receiver: usize) -> String {
        let (mut re, mut im) = (self.random.unit(), self.random.unit());
        let mut counter = self.counter;
        let reasons = self.random.between(1, 15);
        let beyond = [f32::NAN, f32::INFINITY, LARGEST_PART.next_up(), f32::MAX];
        if reasons & 1 != 0 {
            re = self.random.pick(&beyond);
        }
        if reasons & 2 != 0 {
            im = -self.random.pick(&beyond);
        }
        if reasons & 4 != 0 {
            counter -= self.random.pick(&[1, 2, 1020, counter]);
        }
        if reasons & 8 != 0 {
            counter = self.random.pick(&BAD_COUNTERS);
        }
        line(receiver, counter, ComplexSample { re, im })
    }
}

fn line(receiver: usize, counter: i64, sample: ComplexSample) -> String {
    format!(
        "s {receiver} {counter} {} {}",
        hex(sample.re),
        hex(sample.im)
    )
}
