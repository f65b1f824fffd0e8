//! A downlink that is sent and received, an uplink receiver that follows it, and what is refused.

use tetra_modem::burst_consts::TIMESLOT_TYPE4_BITS;
use tetra_modem::demodulator::{Demodulator, Fed, Mode, Stop};
use tetra_modem::dsp_types::{ComplexSample, SampleCount};
use tetra_modem::logger::{judge, Judged, SlotType};
use tetra_modem::modulator::{self, Modulator};
use tetra_modem::rxtx_dev::{RxBurstBits, TxSlotBits};
use tetra_modem::slotter::{build_ndb, build_sdb};
use tetra_modem::TrainingSequence::{self, *};
use tetra_modem::{Refusal, TdmaTime};

const SLOTS: usize = 20;
const LAST_COUNTER: SampleCount = 137_438_953_471;

type Bits = [u8; TIMESLOT_TYPE4_BITS];

/// A slot's blocks are its number's bits over and over, so that no two slots are alike.
fn burst(slot: usize) -> (TrainingSequence, Bits) {
    fn block<const N: usize>(slot: usize) -> [u8; N] {
        std::array::from_fn(|i| (slot >> (i % 5) & 1) as u8)
    }
    match slot % 4 {
        1 => (
            SyncTrainSeq,
            build_sdb(&block(slot), &block(slot), &block(slot)).unwrap(),
        ),
        2 => (
            NormalTrainSeq1,
            build_ndb(NormalTrainSeq1, &block(slot), &block(slot), &block(slot)).unwrap(),
        ),
        _ => (
            NormalTrainSeq2,
            build_ndb(NormalTrainSeq2, &block(slot), &block(slot), &block(slot)).unwrap(),
        ),
    }
}

/// The samples of all slots and an empty one, by single calls and by blocks.
fn send() -> Vec<ComplexSample> {
    let (mut single, mut blocks) = (
        Modulator::new(modulator::Mode::Dl),
        Modulator::new(modulator::Mode::Dl),
    );
    let mut air = Vec::new();
    for slot in 0..=SLOTS {
        let (_, bits) = burst(slot);
        let slot = TxSlotBits {
            time: TdmaTime::from_int(slot as i32),
            slot: (slot < SLOTS).then_some(&bits[..]),
        };
        let first = air.len();
        let refusal = loop {
            match single.sample(air.len() as SampleCount, &slot) {
                Ok(sample) => air.push(sample),
                Err(refusal) => break refusal,
            }
        };
        assert_eq!(refusal, modulator::Error::NeedMoreData);
        let mut block = [ComplexSample::ZERO; 2000];
        let sent = blocks.block(first as SampleCount, &slot, &mut block);
        assert_eq!(sent.refusal, Some(Refusal::NeedMoreData));
        assert_eq!(block[..sent.count], air[first..]);
    }
    air
}

/// Takes the slot that waits and checks it: the receiver's slot 1 is the sent slot 1, and `last` is the sample just fed.
fn check_slot(receiver: &mut Demodulator, last: usize) -> usize {
    assert!(receiver.demodulated_slot_available());
    let slot = receiver.take_demodulated_slot().expect("a slot waits");
    assert_eq!(slot.closing_counter, last as SampleCount);
    let number = slot.time.to_int() as usize;
    let (train_type, bits) = burst(number);
    assert_eq!(
        (
            slot.slot.train_type,
            slot.slot.train_errs,
            slot.slot.burst_pos
        ),
        (train_type, 0, 0)
    );
    assert_eq!(slot.slot.bits, bits);
    assert_eq!(
        (
            slot.subslot1.train_type,
            slot.subslot1.bits.len(),
            slot.subslot1.train_errs
        ),
        (NotFound, 0, 100)
    );
    let judged = Judged {
        train_type,
        train_errs: 0,
        burst_pos: 0,
        burst_len: 510,
    };
    assert_eq!(judge(SlotType::Dl, receiver.window_bits().slot), Ok(judged));
    assert!(receiver.take_demodulated_slot().is_none());
    number
}

fn told(burst: &RxBurstBits) -> Judged {
    let &RxBurstBits {
        train_type,
        train_errs,
        burst_pos,
        ..
    } = burst;
    Judged {
        train_type,
        train_errs,
        burst_pos,
        burst_len: burst.bits.len(),
    }
}

#[test]
fn received_as_sent() {
    let air = send();
    let mut receiver = Demodulator::new(Mode::DlUnsynchronized);
    let (mut at, mut numbers) = (0, Vec::new());
    while at < air.len() {
        let fed = receiver.feed(&air[at..air.len().min(at + 500)], at as SampleCount);
        at += fed.taken;
        match fed.stop {
            Stop::End => {}
            Stop::Slot => numbers.push(check_slot(&mut receiver, at - 1)),
            Stop::Refused(refusal) => panic!("{refusal}"),
        }
    }
    assert_eq!(receiver.mode(), Mode::Dl);
    assert!(numbers.into_iter().eq(1..SLOTS));
}

#[test]
fn an_uplink_receiver_follows() {
    let air = send();
    let (mut downlink, mut uplink) = (
        Demodulator::new(Mode::DlUnsynchronized),
        Demodulator::new(Mode::Idle),
    );
    let (mut down, mut found, mut numbers) = (0, 0, Vec::new());
    for (counter, &sample) in air.iter().enumerate() {
        downlink.sample(sample, counter as SampleCount).unwrap();
        if downlink.demodulated_slot_available() {
            down = check_slot(&mut downlink, counter);
            uplink.sync_to_demodulator(&downlink).unwrap();
        }
        // Of normal bursts the uplink's windows hold the training sequence too.
        uplink.sample(sample, counter as SampleCount).unwrap();
        if let Some(slot) = uplink.take_demodulated_slot() {
            assert_eq!(
                slot.time,
                TdmaTime::from_int(down as i32 - 2),
                "2 less, wrapping"
            );
            assert_eq!(slot.closing_counter, counter as SampleCount);
            numbers.push(slot.time.to_int());
            let views = [&slot.slot, &slot.subslot1, &slot.subslot2].map(told);
            let windows = uplink.window_bits();
            assert_eq!(judge(SlotType::UlFull, windows.slot), Ok(views[0]));
            assert_eq!(judge(SlotType::UlSub, windows.subslot1), Ok(views[1]));
            assert_eq!(judge(SlotType::UlSub, windows.subslot2), Ok(views[2]));
            found += usize::from(views[0].burst_len == 462);
        }
    }
    assert!(found > SLOTS / 2);
    assert_eq!(uplink.mode(), Mode::Ul);
    assert_eq!(numbers[..3], [283_115_519, 0, 1]);
    assert_eq!(
        downlink.sync_to_demodulator(&uplink),
        Err(Refusal::NotFollowing)
    );
}

/// Two slots' samples from 6,130 on are missing. Where they are just left out, a burst gets another one's number.
#[test]
fn zeros_in_a_gap() {
    let air = send();
    let gap = 6130..8170;
    for with_zeros in [false, true] {
        let mut receiver = Demodulator::new(Mode::DlUnsynchronized);
        let (mut at, mut misplaced) = (0, 0);
        while at < air.len() {
            let fed = match at {
                at if at < gap.start => receiver.feed(&air[at..gap.start], at as SampleCount),
                at if at >= gap.end => receiver.feed(&air[at..], at as SampleCount),
                at if with_zeros => receiver.feed_zeros(gap.end - at, at as SampleCount),
                at => Fed {
                    taken: gap.end - at,
                    stop: Stop::End,
                },
            };
            at += fed.taken;
            if let Some(slot) = receiver.take_demodulated_slot() {
                let is_own = |other| slot.slot.bits == burst(other).1;
                misplaced += (0..SLOTS)
                    .filter(|&other| is_own(other) && other as i32 != slot.time.to_int())
                    .count();
            }
        }
        assert_eq!(misplaced, if with_zeros { 0 } else { 1 });
    }
}

/// Zeros are fed under 480 to 1,499, and slot 0 closes with that of the missing sample 1,034.
#[test]
fn closed_by_a_zero() {
    let mut receiver = Demodulator::new(Mode::Dl);
    receiver.sample(ComplexSample::ZERO, 1500).unwrap();
    let slot = receiver.take_demodulated_slot().expect("a slot waits");
    assert_eq!((slot.time.to_int(), slot.closing_counter), (0, 1034));
}

#[test]
fn refusals_are_errors() {
    let mut receiver = Demodulator::new(Mode::DlUnsynchronized);
    assert_eq!(
        receiver.sample(ComplexSample::new(f32::NAN, 0.0), 0),
        Err(Refusal::BadSample)
    );
    assert_eq!(
        receiver.sample(ComplexSample::ZERO, -1),
        Err(Refusal::BadCounter)
    );
    assert_eq!(receiver.sample(ComplexSample::ZERO, 5), Ok(()));
    assert_eq!(
        receiver.sample(ComplexSample::ZERO, 5),
        Err(Refusal::PastCounter)
    );
    assert_eq!(
        receiver.feed(&[], 5),
        Fed {
            taken: 0,
            stop: Stop::End
        }
    );
    let block = [ComplexSample::ZERO, ComplexSample::new(0.0, 1025.0)];
    assert_eq!(
        receiver.feed(&block, 6),
        Fed {
            taken: 1,
            stop: Stop::Refused(Refusal::BadSample)
        }
    );
    let end = Fed {
        taken: 3001,
        stop: Stop::Refused(Refusal::BadCounter),
    };
    assert_eq!(receiver.feed_zeros(5000, LAST_COUNTER - 3000), end);
    assert!(receiver.take_demodulated_slot().is_none());

    let mut sender = Modulator::new(modulator::Mode::Dl);
    let slot = |bits| TxSlotBits {
        time: TdmaTime::from_int(0),
        slot: Some(bits),
    };
    assert_eq!(sender.sample(0, &slot(&[0; 509])), Err(Refusal::BadLength));
    assert_eq!(sender.sample(0, &slot(&[2; 510])), Err(Refusal::BadBit));
    assert_eq!(
        sender.sample(LAST_COUNTER + 1, &TxSlotBits::default()),
        Err(Refusal::BadCounter)
    );
    assert_eq!(
        build_sdb(&[2; 120], &[0; 30], &[0; 216]),
        Err(Refusal::BadBit)
    );
    assert_eq!(
        build_ndb(SyncTrainSeq, &[0; 216], &[0; 30], &[0; 216]),
        Err(Refusal::BadTraining)
    );
    assert_eq!(judge(SlotType::UlSub, &[0; 510]), Err(Refusal::BadLength));
    assert_eq!(Refusal::NeedMoreData.number(), 12);
    assert_eq!(
        Refusal::NotFollowing.to_string(),
        "refused=13: the receiver finds its own timing"
    );
}
