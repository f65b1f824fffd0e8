//! Stand-ins for two types of the source's crate tetra_core.

use crate::ffi;

/// 4 slots, 18 frames, 60 multiframes, 65,536 hyperframes.
const SLOTS: i64 = 283_115_520;

/// A slot number, 0 to 283,115,519. To exchange it with tetra_core's own: `from_int` and `to_int`.
#[derive(Clone, Copy, Debug, Default, PartialEq, Eq, Hash)]
pub struct TdmaTime(u32);

impl TdmaTime {
    /// The slot with this number, wrapping at both ends: -1 is 283,115,519.
    pub fn from_int(slot: i32) -> TdmaTime {
        TdmaTime::default().add_timeslots(slot)
    }

    pub fn to_int(self) -> i32 {
        self.0 as i32
    }

    /// So many slots later, wrapping at both ends.
    pub fn add_timeslots(self, slots: i32) -> TdmaTime {
        TdmaTime((i64::from(self.0) + i64::from(slots)).rem_euclid(SLOTS) as u32)
    }

    pub(crate) fn number(self) -> u32 {
        self.0
    }
}

impl From<&ffi::Slot> for TdmaTime {
    fn from(slot: &ffi::Slot) -> TdmaTime {
        TdmaTime(slot.time)
    }
}

/// The training sequence of a burst, numbered as the library numbers them.
#[derive(Clone, Copy, Debug, Default, PartialEq, Eq)]
#[repr(u32)]
pub enum TrainingSequence {
    #[default]
    NotFound = 0,
    NormalTrainSeq1 = 1,
    NormalTrainSeq2 = 2,
    ExtendedTrainSeq = 3,
    SyncTrainSeq = 4,
}

impl TrainingSequence {
    pub(crate) fn of(number: u8) -> TrainingSequence {
        match number {
            0 => TrainingSequence::NotFound,
            1 => TrainingSequence::NormalTrainSeq1,
            2 => TrainingSequence::NormalTrainSeq2,
            3 => TrainingSequence::ExtendedTrainSeq,
            4 => TrainingSequence::SyncTrainSeq,
            _ => unreachable!("the library has no burst type {number}"),
        }
    }
}
