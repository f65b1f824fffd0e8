//! The original's builders behind document 01's refusals, with the four adjustment bits of EN 300 392-2.

use crate::phy::components::{burst_consts::*, slotter, train_consts::TIMESLOT_TYPE4_BITS};
use crate::refusals::*;
use crate::TrainingSequence;

pub type Burst = [u8; TIMESLOT_TYPE4_BITS];

/// The kind of burst that is wanted.
#[derive(Clone, Copy, PartialEq)]
pub enum Wanted {
    Sync,
    /// A normal burst with the training sequence of this number.
    Normal(u32),
}

impl Wanted {
    /// The lengths of the three blocks in burst order.
    pub fn lengths(self) -> [usize; 3] {
        match self {
            Wanted::Sync => [SB_BLK1_BITS, SB_BBK_BITS, SB_BLK2_BITS],
            Wanted::Normal(_) => [NDB_BLK_BITS, NDB_BBK_BITS, NDB_BLK_BITS],
        }
    }

    /// First and last symbol, counted from 1, of the windows of the two adjustments.
    fn windows(self) -> [(usize, usize); 2] {
        match self {
            Wanted::Sync => [(8, 108), (109, 249)],
            Wanted::Normal(_) => [(8, 122), (123, 249)],
        }
    }
}

/// Where the two adjustment symbols stand.
pub const ADJUSTMENTS: [usize; 2] = [12, 498];

/// Builds from three slices.
pub fn build(wanted: Wanted, blocks: [&[u8]; 3]) -> Result<Burst, Refusal> {
    refuse_if(blocks.map(<[u8]>::len) != wanted.lengths(), BAD_LENGTH)?;
    refuse_if(blocks.into_iter().any(not_bits), BAD_BIT)?;
    let mut burst = original(wanted, blocks)?;
    for (place, window) in ADJUSTMENTS.into_iter().zip(wanted.windows()) {
        let symbol = adjustment(window_sum(&burst, window));
        burst[place..place + 2].copy_from_slice(&symbol);
    }
    Ok(burst)
}

/// Builds from the blocks joined. Another letter than S, N and P wants no burst, and no length is judged for it.
pub fn build_joined(letter: char, bits: &[u8]) -> Result<Burst, Refusal> {
    let wanted = match letter {
        'S' => Wanted::Sync,
        'N' => Wanted::Normal(1),
        'P' => Wanted::Normal(2),
        _ => {
            refuse_if(not_bits(bits), BAD_BIT)?;
            return Err(BAD_TRAINING);
        }
    };
    let [first, middle, last] = wanted.lengths();
    refuse_if(bits.len() != first + middle + last, BAD_LENGTH)?;
    let (first, rest) = bits.split_at(first);
    let (middle, last) = rest.split_at(middle);
    build(wanted, [first, middle, last])
}

/// The original's burst from blocks of the right lengths, its own adjustment bits included.
fn original(wanted: Wanted, [first, middle, last]: [&[u8]; 3]) -> Result<Burst, Refusal> {
    let sequence = match wanted {
        Wanted::Sync => {
            return Ok(slotter::build_sdb(
                first.try_into().unwrap(),
                middle.try_into().unwrap(),
                last.try_into().unwrap(),
            ))
        }
        Wanted::Normal(1) => TrainingSequence::NormalTrainSeq1,
        Wanted::Normal(2) => TrainingSequence::NormalTrainSeq2,
        Wanted::Normal(_) => return Err(BAD_TRAINING),
    };
    Ok(slotter::build_ndb(
        sequence,
        first.try_into().unwrap(),
        middle.try_into().unwrap(),
        last.try_into().unwrap(),
    ))
}

/// Symbols and their phases in eighths of a turn.
const SYMBOL_PHASES: [([u8; 2], i32); 4] = [([0, 0], 1), ([0, 1], 3), ([1, 0], -1), ([1, 1], -3)];

/// The sum of a window's phases.
fn window_sum(burst: &Burst, (first, last): (usize, usize)) -> i32 {
    burst[2 * (first - 1)..2 * last]
        .chunks_exact(2)
        .map(|symbol| {
            SYMBOL_PHASES
                .iter()
                .find(|(bits, _)| bits == symbol)
                .unwrap()
                .1
        })
        .sum()
}

/// The symbol whose phase plus the window's sum is 0 modulo 8 (clause 9.4.4.3).
fn adjustment(sum: i32) -> [u8; 2] {
    SYMBOL_PHASES
        .into_iter()
        .find(|(_, phase)| (phase + sum) % 8 == 0)
        .unwrap()
        .0
}

#[cfg(test)]
mod tests {
    use super::*;

    fn zeros(wanted: Wanted) -> [&'static [u8]; 3] {
        wanted.lengths().map(|length| &[0; 216][..length])
    }

    #[test]
    fn checked_sums_and_adjustments() {
        let rows = [
            (Wanted::Sync, 0, 65, [1, 0]),
            (Wanted::Sync, 1, 127, [0, 0]),
            (Wanted::Normal(1), 0, 115, [1, 1]),
            (Wanted::Normal(1), 1, 117, [0, 1]),
            (Wanted::Normal(2), 1, 115, [1, 1]),
        ];
        for (wanted, which, sum, bits) in rows {
            let burst = build(wanted, zeros(wanted)).unwrap();
            assert_eq!(window_sum(&burst, wanted.windows()[which]), sum);
            let place = ADJUSTMENTS[which];
            assert_eq!(burst[place..place + 2], bits);
        }
    }

    /// The original gives symbol 01 where the standard has 10, and so strays in bits 12 and 13.
    #[test]
    fn the_original_strays_in_the_sync_burst_of_zeros() {
        let theirs = original(Wanted::Sync, zeros(Wanted::Sync)).unwrap();
        let ours = build(Wanted::Sync, zeros(Wanted::Sync)).unwrap();
        let strays: Vec<usize> = (0..510).filter(|&at| theirs[at] != ours[at]).collect();
        assert_eq!(strays, [12, 13]);
        assert_eq!(theirs[12..14], [0, 1]);
    }

    #[test]
    fn the_smallest_refusal_is_given() {
        assert_eq!(build_joined('S', &[2; 365]), Err(BAD_LENGTH));
        assert_eq!(build_joined('S', &[2; 366]), Err(BAD_BIT));
        assert_eq!(build_joined('X', &[2]), Err(BAD_BIT));
        assert_eq!(build_joined('X', &[]), Err(BAD_TRAINING));
        assert_eq!(
            build(Wanted::Normal(3), zeros(Wanted::Sync)),
            Err(BAD_LENGTH)
        );
        assert_eq!(
            build(Wanted::Normal(3), zeros(Wanted::Normal(1))),
            Err(BAD_TRAINING)
        );
    }
}
