//! What a list of calls works on, and the answer to each call: the original's, behind document 01's refusals.

use crate::bursts;
use crate::calls::{self, Call};
use crate::phy::components::demodulator::{demodulator_private, Demodulator, Mode};
use crate::phy::components::dsp_types::{ComplexSample, SampleCount};
use crate::phy::components::fir::FirComplexSym;
use crate::phy::components::modem_common::CHANNEL_FILTER_TAPS;
use crate::phy::components::modulator::{self, Modulator};
use crate::phy::traits::rxtx_dev::TxSlotBits;
use crate::receiver::Receiver;
use crate::refusals::*;
use crate::stand_ins::{magnitude, quarter_turns, SLOTS};
use crate::uplink_bursts;
use crate::{TdmaTime, TrainingSequence};

/// Bits of a full and of a half window, and bytes of the logger's answer.
pub const FULL_BITS: usize = 510;
pub const HALF_BITS: usize = 254;
pub const ANSWER_BYTES: usize = 6;

/// The text of an accepted call, empty where nothing is printed.
type Outcome = Result<String, Refusal>;

pub struct Session {
    receivers: [Option<Box<Receiver>>; calls::RECEIVERS],
    sender: Option<Modulator>,
    line: FirComplexSym,
}

impl Default for Session {
    fn default() -> Self {
        Self {
            receivers: Default::default(),
            sender: None,
            line: new_line(),
        }
    }
}

impl Session {
    pub fn receiver(&self, receiver: usize) -> Option<&Demodulator> {
        self.receivers[receiver].as_deref().map(Receiver::original)
    }

    /// Makes the call that a line names; the answer is empty where nothing is printed.
    pub fn answer(&mut self, line: &str) -> String {
        match self.call(line) {
            Some(Ok(text)) => text,
            Some(Err(number)) => format!("refused {number}"),
            None => "error".into(),
        }
    }

    /// `None` where the line is no call, or its receiver or sender was never made.
    fn call(&mut self, line: &str) -> Option<Outcome> {
        Some(match calls::read(line)? {
            Call::NewReceiver(r, mode) => {
                self.receivers[r] = Some(Box::new(Receiver::new(mode)));
                done()
            }
            Call::Sample(r, counter, sample) => {
                receive(self.receivers[r].as_mut()?, counter, sample)
            }
            Call::Take(r, lengths, tells_closing) => {
                take(self.receivers[r].as_mut()?, lengths, tells_closing)
            }
            Call::Follow(r, leader) => self.follow(r, leader)?,
            Call::NewSender => {
                self.sender = Some(Modulator::new(modulator::Mode::Dl));
                done()
            }
            Call::Send(counter, slot, bits) => {
                send(self.sender.as_mut()?, counter, slot, bits.as_deref())
            }
            Call::Judge(kind, answer_length, bits) => judge(kind, answer_length, &bits),
            Call::BuildJoined(letter, bits) => built(bursts::build_joined(letter, &bits)),
            Call::Build(wanted, blocks) => {
                built(bursts::build(wanted, blocks.each_ref().map(Vec::as_slice)))
            }
            Call::BuildUplink(wanted, [first, second]) => {
                built(uplink_bursts::build(wanted, [&first, &second]))
            }
            Call::NewLine => {
                self.line = new_line();
                done()
            }
            Call::Filter(sample) => out(self.line.sample(&CHANNEL_FILTER_TAPS, sample)),
            Call::Magnitude(sample) => Ok(hex(magnitude(sample))),
            Call::QuarterTurns(i, q) => Ok(hex(quarter_turns(i, q))),
        })
    }

    fn follow(&mut self, receiver: usize, leader: usize) -> Option<Outcome> {
        let mode = self.receiver(receiver)?.mode();
        self.receivers[leader].as_ref()?;
        if mode == Mode::Dl || mode == Mode::DlUnsynchronized {
            return Some(Err(NOT_FOLLOWING));
        }
        // A receiver that may follow is in no mode that leads: told to follow itself, it stays as it is.
        if let Ok([Some(follower), Some(leader)]) =
            self.receivers.get_disjoint_mut([receiver, leader])
        {
            follower.sync_to(leader);
        }
        Some(done())
    }
}

fn new_line() -> FirComplexSym {
    FirComplexSym::new(CHANNEL_FILTER_TAPS.len())
}

fn receive(receiver: &mut Receiver, counter: SampleCount, sample: ComplexSample) -> Outcome {
    refuse_if(beyond(sample.re) || beyond(sample.im), BAD_SAMPLE)?;
    refuse_if(out_of_count(counter), BAD_COUNTER)?;
    refuse_if(counter < receiver.original().next_counter(), PAST_COUNTER)?;
    receiver.sample(sample, counter);
    Ok(String::new())
}

fn take(receiver: &mut Receiver, lengths: [usize; 3], tells_closing: bool) -> Outcome {
    refuse_if(lengths != [FULL_BITS, HALF_BITS, HALF_BITS], BAD_LENGTH)?;
    let closing_counter = receiver.closing_counter();
    let original = receiver.original_mut();
    let errors = original.errors();
    let slot = original.take_demodulated_slot().ok_or(NO_SLOT)?;
    let mut text = format!("slot {}", slot.time.to_int());
    if tells_closing {
        text += &format!(" {closing_counter}");
    }
    for (burst, errors) in [slot.slot, slot.subslot1, slot.subslot2].iter().zip(errors) {
        let view = match burst.bits {
            [] => "-".into(),
            bits => digits(bits),
        };
        text += &format!(" {} {errors} {view}", type_number(burst.train_type));
    }
    Ok(text)
}

fn send(sender: &mut Modulator, counter: SampleCount, slot: u32, bits: Option<&[u8]>) -> Outcome {
    refuse_if(out_of_count(counter), BAD_COUNTER)?;
    refuse_if(bits.is_some_and(|bits| bits.len() != FULL_BITS), BAD_LENGTH)?;
    refuse_if(bits.is_some_and(not_bits), BAD_BIT)?;
    refuse_if(slot >= SLOTS as u32, BAD_SLOT)?;
    let tx_slot = TxSlotBits {
        time: TdmaTime::from_int(slot as i32),
        slot: bits,
    };
    match sender.sample(counter, &tx_slot) {
        Ok(sample) => out(sample),
        Err(modulator::Error::NeedMoreData) => Err(NEED_MORE_DATA),
    }
}

fn judge(kind: u32, answer_length: usize, bits: &[u8]) -> Outcome {
    let fits = match kind {
        0 | 1 => bits.len() == FULL_BITS,
        2 => bits.len() == HALF_BITS,
        _ => true,
    };
    refuse_if(answer_length != ANSWER_BYTES || !fits, BAD_LENGTH)?;
    refuse_if(not_bits(bits), BAD_BIT)?;
    refuse_if(kind > 2, BAD_KIND)?;
    let found = demodulator_private::judge(kind, bits);
    Ok(format!(
        "judged {} {} {} {}",
        type_number(found.train_type),
        found.errors,
        found.place,
        found.length
    ))
}

fn type_number(train_type: TrainingSequence) -> u32 {
    match train_type {
        TrainingSequence::NotFound => 0,
        TrainingSequence::NormalTrainSeq1 => 1,
        TrainingSequence::NormalTrainSeq2 => 2,
        TrainingSequence::ExtendedTrainSeq => 3,
        TrainingSequence::SyncTrainSeq => 4,
    }
}

fn done() -> Outcome {
    Ok("ok".into())
}

fn built(burst: Result<impl AsRef<[u8]>, Refusal>) -> Outcome {
    Ok(format!("burst {}", digits(burst?.as_ref())))
}

fn out(sample: ComplexSample) -> Outcome {
    Ok(format!("out {} {}", hex(sample.re), hex(sample.im)))
}

/// An f32's bit pattern.
pub fn hex(x: f32) -> String {
    format!("{:08x}", x.to_bits())
}

/// One decimal digit a byte.
pub fn digits(bytes: &[u8]) -> String {
    bytes.iter().map(|byte| (b'0' + byte) as char).collect()
}

#[cfg(test)]
mod tests {
    use super::*;

    fn answers(lines: &[&str]) -> Vec<String> {
        let mut session = Session::default();
        lines.iter().map(|line| session.answer(line)).collect()
    }

    #[test]
    fn receivers_and_senders_are_made_first() {
        let zeros = "00000000 00000000";
        let lines = [
            &format!("s 0 0 {zeros}"),
            "w 0 0 -",
            "new 0 1",
            "txnew",
            &format!("s 0 0 {zeros}"),
            &format!("s 0 0 {zeros}"),
            "f 0 1",
            "w 0 0 -",
            "w 1004 0 -",
        ];
        let expected = [
            "error",
            "error",
            "ok",
            "ok",
            "",
            "refused 10",
            "error",
            "out 00000000 00000000",
            "refused 12",
        ];
        assert_eq!(answers(&lines), expected);
    }

    /// The second sample closes two windows, and the last one that of a search, after a hundred slots without a burst.
    #[test]
    fn the_closing_counter_is_the_slots_own() {
        let mut session = Session::default();
        let lines = [
            "new 0 2",
            "s 0 1500 00000000 00000000",
            "T 0 510 254 255",
            "T 0 510 254 254",
            "t 0 510 254 254",
            "s 0 3074 00000000 00000000",
            "T 0 510 254 254",
        ];
        let none = "0 100 -";
        let expected = [
            "ok",
            "",
            "refused 3",
            &format!("slot 0 1034 {none} {none} {none}"),
            "refused 11",
            "",
            &format!("slot 2 3074 {none} {none} {none}"),
        ];
        assert_eq!(lines.map(|line| session.answer(line)), expected);
        let last = 1034 + 99 * 1020;
        for counter in (3075..=last).step_by(1000).chain([last, last + 400]) {
            session.answer(&format!("s 0 {counter} 00000000 00000000"));
        }
        let waits = format!("slot 99 {last} {none} {none} {none}");
        assert_eq!(session.answer("T 0 510 254 254"), waits);
    }

    #[test]
    fn the_smallest_refusal_is_given() {
        let lines = [
            "new 0 1",
            "t 0 509 254 254",
            "t 0 510 254 254",
            "f 0 0",
            "s 0 -1 7fc00000 00000000",
            "s 0 -1 44800001 00000000",
            "s 0 -1 44800000 c4800000",
            "j 9 5 =2",
            "j 9 6 =2",
            "j 9 6 =",
            "j 0 6 =",
        ];
        let numbers = ["3", "11", "13", "1", "1", "2", "3", "4", "7", "3"];
        let expected: Vec<String> = numbers.iter().map(|n| format!("refused {n}")).collect();
        assert_eq!(answers(&lines)[1..], expected);
    }
}
