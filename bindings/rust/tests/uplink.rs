//! Uplink bursts: their fields, where the logger's call finds them, and what is refused.

use tetra_modem::burst_consts::*;
use tetra_modem::logger::{judge, Judged, SlotType};
use tetra_modem::slotter::{build_cub, build_nub};
use tetra_modem::Refusal;
use tetra_modem::TrainingSequence::{self, *};

const NORMAL_1: &str = "1101000011101001110100";
const NORMAL_2: &str = "0111101001000011011110";
const EXTENDED: &str = "100111010000111010011101000011";

fn block<const N: usize>(step: usize) -> [u8; N] {
    std::array::from_fn(|i| (i / step % 2) as u8)
}

fn digits(bits: &[u8]) -> String {
    bits.iter().map(u8::to_string).collect()
}

/// A burst has its fields, and is found at each even offset from 0 to 48 of a window of otherwise zero bits.
fn check(burst: &[u8], blocks: [&[u8]; 2], sequence: &str, train_type: TrainingSequence) {
    let [first, second] = blocks.map(digits);
    let fields = format!("1100{first}{sequence}{second}1100");
    assert_eq!(digits(burst), fields);
    let (kind, length) = match train_type {
        ExtendedTrainSeq => (SlotType::UlSub, HALF_WINDOW_BITS),
        _ => (SlotType::UlFull, TIMESLOT_TYPE4_BITS),
    };
    for burst_pos in (0..=48).step_by(2) {
        let mut window = vec![0; length];
        window[burst_pos..burst_pos + burst.len()].copy_from_slice(burst);
        let judged = Judged {
            train_type,
            train_errs: 0,
            burst_pos,
            burst_len: burst.len(),
        };
        assert_eq!(judge(kind, &window), Ok(judged));
    }
}

#[test]
fn built_and_found() {
    let (first, second) = (block(3), block(5));
    for (train_seq, sequence) in [(NormalTrainSeq1, NORMAL_1), (NormalTrainSeq2, NORMAL_2)] {
        let burst = build_nub(train_seq, &first, &second).unwrap();
        check(&burst, [&first, &second], sequence, train_seq);
    }
    let (first, second) = (block(3), block(5));
    let burst = build_cub(&first, &second).unwrap();
    check(&burst, [&first, &second], EXTENDED, ExtendedTrainSeq);
}

#[test]
fn refusals_are_errors() {
    assert_eq!(
        build_nub(SyncTrainSeq, &[0; NUB_BLK_BITS], &[2; NUB_BLK_BITS]),
        Err(Refusal::BadBit)
    );
    assert_eq!(
        build_nub(ExtendedTrainSeq, &[0; NUB_BLK_BITS], &[0; NUB_BLK_BITS]),
        Err(Refusal::BadTraining)
    );
    assert_eq!(
        build_cub(&[255; CUB_BLK_BITS], &[0; CUB_BLK_BITS]),
        Err(Refusal::BadBit)
    );
}
