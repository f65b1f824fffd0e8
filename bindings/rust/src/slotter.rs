//! The burst builders, named as in the source's slotter.rs, and those of the uplink, which it has not.

use crate::burst_consts::*;
use crate::ffi;
use crate::{Refusal, TrainingSequence};

/// Constructs a synchronization downlink burst (EN 300 392-2, 9.4.4.2.6) from three blocks, one byte a bit. A byte that is
/// neither 0 nor 1 is refused.
pub fn build_sdb(
    blk1: &[u8; SB_BLK1_BITS],
    bbk: &[u8; SB_BBK_BITS],
    blk2: &[u8; SB_BLK2_BITS],
) -> Result<[u8; TIMESLOT_TYPE4_BITS], Refusal> {
    let mut bits = [0; TIMESLOT_TYPE4_BITS];
    let (a, b, c, out) = (
        blk1.as_ptr(),
        bbk.as_ptr(),
        blk2.as_ptr(),
        bits.as_mut_ptr(),
    );
    // SAFETY: each pointer goes with the length of its own array.
    let refusal = unsafe {
        ffi::tetra_build_sync(
            a,
            blk1.len(),
            b,
            bbk.len(),
            c,
            blk2.len(),
            out,
            TIMESLOT_TYPE4_BITS,
        )
    };
    Refusal::none(refusal).map(|()| bits)
}

/// Constructs a normal continuous downlink burst (EN 300 392-2, 9.4.4.2.5) from three blocks, one byte a bit. A byte that is
/// neither 0 nor 1 is refused, and a training sequence other than the two normal ones.
pub fn build_ndb(
    train_seq: TrainingSequence,
    blk1: &[u8; NDB_BLK_BITS],
    bbk: &[u8; NDB_BBK_BITS],
    blk2: &[u8; NDB_BLK_BITS],
) -> Result<[u8; TIMESLOT_TYPE4_BITS], Refusal> {
    let mut bits = [0; TIMESLOT_TYPE4_BITS];
    let (a, b, c, out) = (
        blk1.as_ptr(),
        bbk.as_ptr(),
        blk2.as_ptr(),
        bits.as_mut_ptr(),
    );
    let train = train_seq as u32;
    // SAFETY: as above.
    let refusal = unsafe {
        ffi::tetra_build_normal(
            train,
            a,
            blk1.len(),
            b,
            bbk.len(),
            c,
            blk2.len(),
            out,
            TIMESLOT_TYPE4_BITS,
        )
    };
    Refusal::none(refusal).map(|()| bits)
}

/// Constructs a normal uplink burst (EN 300 392-2, 9.4.4.2.4) from two blocks, one byte a bit. A byte that is neither 0 nor 1 is
/// refused, and a training sequence other than the two normal ones.
pub fn build_nub(
    train_seq: TrainingSequence,
    blk1: &[u8; NUB_BLK_BITS],
    blk2: &[u8; NUB_BLK_BITS],
) -> Result<[u8; NUB_BITS], Refusal> {
    let mut bits = [0; NUB_BITS];
    let (a, b, out) = (blk1.as_ptr(), blk2.as_ptr(), bits.as_mut_ptr());
    let train = train_seq as u32;
    // SAFETY: as above.
    let refusal = unsafe {
        ffi::tetra_build_normal_uplink(train, a, blk1.len(), b, blk2.len(), out, NUB_BITS)
    };
    Refusal::none(refusal).map(|()| bits)
}

/// Constructs a control uplink burst (EN 300 392-2, 9.4.4.2.1) from two blocks, one byte a bit. A byte that is neither 0 nor 1
/// is refused.
pub fn build_cub(
    blk1: &[u8; CUB_BLK_BITS],
    blk2: &[u8; CUB_BLK_BITS],
) -> Result<[u8; CUB_BITS], Refusal> {
    let mut bits = [0; CUB_BITS];
    let (a, b, out) = (blk1.as_ptr(), blk2.as_ptr(), bits.as_mut_ptr());
    // SAFETY: as above.
    let refusal =
        unsafe { ffi::tetra_build_control_uplink(a, blk1.len(), b, blk2.len(), out, CUB_BITS) };
    Refusal::none(refusal).map(|()| bits)
}
