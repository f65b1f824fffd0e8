//! Calls to the sender: runs of counters over slots that follow, come early, come late, are absent or repeated.

use super::random::Random;
use super::signal::downlink_burst;
use super::{spoil_a_bit, wrong_length, BAD_COUNTERS, SLOT_SAMPLES};
use crate::phy::components::modem_common::CHANNEL_FILTER_TAPS;
use crate::refusals::LARGEST_COUNTER;
use crate::session::{digits, FULL_BITS};
use crate::stand_ins::SLOTS;
use std::iter;

struct Sender {
    random: Random,
    counter: i64,
    slot: i64,
    bits: Option<Vec<u8>>,
}

pub fn lines(mut random: Random) -> impl Iterator<Item = String> {
    let bits = Some(random.bits(FULL_BITS));
    let mut sender = Sender {
        random,
        counter: 0,
        slot: 0,
        bits,
    };
    let first = iter::once("txnew".into());
    first.chain(iter::repeat_with(move || sender.stretch()).flatten())
}

impl Sender {
    /// A run of counters, over the end of the slot or somewhere else, with refused calls in between.
    fn stretch(&mut self) -> Vec<String> {
        let mut lines = Vec::new();
        if self.random.one_in(30) {
            lines.push("txnew".into());
        }
        self.place();
        let longest = self.random.pick(&[8, 40, 40, 150]);
        for _ in 0..self.random.between(1, longest) {
            if self.random.one_in(25) {
                lines.push(self.refused());
            }
            if self.counter > self.last_in_slot() {
                lines.push(self.call());
                self.next_slot();
            }
            lines.push(self.call());
            self.counter += self.random.pick(&[1, 1, 1, 1, 1, 1, 1, 4]);
            if self.counter > LARGEST_COUNTER + 3 {
                break;
            }
        }
        lines
    }

    /// Goes on, or to another slot or counter.
    fn place(&mut self) {
        let (top, last) = (LARGEST_COUNTER / SLOT_SAMPLES, SLOTS as i64 - 1);
        self.slot = match self.random.below(10) {
            0 => self.slot + self.random.between(-2, 3),
            1 => self.random.between(0, top),
            2 => top - self.random.between(-1, 1),
            3 => last - self.random.between(0, 1),
            4 => 0,
            5 => self.slot,
            _ if self.counter <= LARGEST_COUNTER => return,
            _ => 0,
        }
        .clamp(0, last);
        let into_slot = self.last_in_slot() - self.random.pick(&[10, 30, 1010, 1030]);
        self.counter = into_slot.clamp(0, LARGEST_COUNTER - 10) + self.random.between(0, 10);
    }

    /// The last counter at which the slot is not yet past.
    fn last_in_slot(&self) -> i64 {
        (self.slot + 1) * SLOT_SAMPLES - 1 - CHANNEL_FILTER_TAPS.len() as i64
    }

    fn next_slot(&mut self) {
        self.slot += self.random.pick(&[0, 1, 1, 1, 1, 1, 2]);
        self.bits = match self.random.below(8) {
            0 => None,
            1 => Some(self.random.bits(FULL_BITS)),
            _ => Some(downlink_burst(&mut self.random).to_vec()),
        };
    }

    fn call(&self) -> String {
        line(self.counter, self.slot, self.bits.as_deref())
    }

    /// A call with one or several reasons to be refused.
    fn refused(&mut self) -> String {
        let (mut counter, mut slot) = (self.counter, self.slot);
        let mut bits = self.random.bits(FULL_BITS);
        let reasons = self.random.between(1, 15);
        if reasons & 1 != 0 {
            counter = self.random.pick(&BAD_COUNTERS);
        }
        if reasons & 2 != 0 {
            let length = wrong_length(&mut self.random, FULL_BITS);
            bits.resize(length, 0);
        }
        if reasons & 4 != 0 {
            spoil_a_bit(&mut self.random, &mut bits);
        }
        if reasons & 8 != 0 {
            slot = self.random.pick(&[SLOTS as i64, u32::MAX as i64]);
        }
        line(counter, slot, Some(&bits))
    }
}

fn line(counter: i64, slot: i64, bits: Option<&[u8]>) -> String {
    match bits {
        Some(bits) => format!("w {counter} {slot} ={}", digits(bits)),
        None => format!("w {counter} {slot} -"),
    }
}
