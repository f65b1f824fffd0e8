//! Uplink bursts, which the original only looks for: document 02's fields in their order, behind its refusals.

use crate::phy::components::burst_consts::{CUB_BLK_BITS, NUB_BLK_BITS};
use crate::phy::components::train_consts::*;
use crate::refusals::*;

/// The kind of burst that is wanted.
#[derive(Clone, Copy)]
pub enum UplinkWanted {
    /// A normal burst with the training sequence of this number.
    Normal(u32),
    Control,
}

const TAIL: [u8; 4] = [1, 1, 0, 0];

impl UplinkWanted {
    /// How many bits each of the two blocks has.
    pub fn block_bits(self) -> usize {
        match self {
            UplinkWanted::Normal(_) => NUB_BLK_BITS,
            UplinkWanted::Control => CUB_BLK_BITS,
        }
    }

    pub fn sequence(self) -> Result<&'static [u8], Refusal> {
        match self {
            UplinkWanted::Normal(1) => Ok(&SEQ_NORM1_AS_ARR),
            UplinkWanted::Normal(2) => Ok(&SEQ_NORM2_AS_ARR),
            UplinkWanted::Normal(_) => Err(BAD_TRAINING),
            UplinkWanted::Control => Ok(&SEQ_EXT_AS_ARR),
        }
    }
}

pub fn build(wanted: UplinkWanted, blocks: [&[u8]; 2]) -> Result<Vec<u8>, Refusal> {
    let right = [wanted.block_bits(); 2];
    refuse_if(blocks.map(<[u8]>::len) != right, BAD_LENGTH)?;
    refuse_if(blocks.into_iter().any(not_bits), BAD_BIT)?;
    let [first, second] = blocks;
    Ok([&TAIL, first, wanted.sequence()?, second, &TAIL].concat())
}

#[cfg(test)]
mod tests {
    use super::*;
    use crate::phy::components::burst_consts::*;

    #[test]
    fn the_fields_stand_where_the_original_says() {
        let tail = T_BITS.to_be_bytes()[7];
        assert_eq!(
            TAIL.iter().fold(0, |number, bit| 2 * number + bit),
            tail & 15
        );
        let rows = [
            (
                UplinkWanted::Normal(2),
                NUB_BITS,
                [
                    NUB_BLK1_OFFSET,
                    NUB_TRAINING_OFFSET,
                    NUB_BLK2_OFFSET,
                    NUB_TAILBITS_OFFSET,
                ],
            ),
            (
                UplinkWanted::Control,
                CUB_BITS,
                [
                    CUB_BLK1_OFFSET,
                    CUB_TRAINING_OFFSET,
                    CUB_BLK2_OFFSET,
                    CUB_TAILBITS_OFFSET,
                ],
            ),
        ];
        for (wanted, length, [first, training, second, tail]) in rows {
            let blocks = [0, 1].map(|bit| vec![bit; wanted.block_bits()]);
            let burst = build(wanted, [&blocks[0], &blocks[1]]).unwrap();
            assert_eq!(burst.len(), length);
            assert_eq!(burst[..first], TAIL);
            assert_eq!(burst[first..training], blocks[0]);
            assert_eq!(burst[training..second], *wanted.sequence().unwrap());
            assert_eq!(burst[second..tail], blocks[1]);
            assert_eq!(burst[tail..], TAIL);
        }
    }

    #[test]
    fn the_smallest_refusal_is_given() {
        let (other, block) = (UplinkWanted::Normal(3), [0; NUB_BLK_BITS]);
        let no_bits = [2; NUB_BLK_BITS];
        assert_eq!(build(other, [&no_bits, &block[1..]]), Err(BAD_LENGTH));
        assert_eq!(build(other, [&no_bits, &block]), Err(BAD_BIT));
        assert_eq!(build(other, [&block, &block]), Err(BAD_TRAINING));
    }
}
