//! How many bits bursts and their blocks have, named as in the source's burst_consts.rs and train_consts.rs.

pub const TIMESLOT_TYPE4_BITS: usize = 510;

pub const SB_BLK1_BITS: usize = 120;
pub const SB_BBK_BITS: usize = 30;
pub const SB_BLK2_BITS: usize = 216;

pub const NDB_BLK_BITS: usize = 216;
pub const NDB_BBK_BITS: usize = 30;

pub const NUB_BITS: usize = 462;
pub const NUB_BLK_BITS: usize = 216;

pub const CUB_BITS: usize = 206;
pub const CUB_BLK_BITS: usize = 84;

/// The bits of the window of half an uplink slot.
pub const HALF_WINDOW_BITS: usize = 254;
