//! What a call is refused with.

use std::error::Error;
use std::fmt;

/// Why a call was refused: the smallest number that holds, from the table in `docs/SPECIFICATION.md`, "Refusals". A refused
/// call changes nothing.
#[derive(Clone, Copy, Debug, PartialEq, Eq)]
#[repr(u32)]
pub enum Refusal {
    /// A part of a sample is NaN, infinite, or beyond 1,024 either side of zero.
    BadSample = 1,
    /// A sample counter is below 0 or above 137,438,953,471.
    BadCounter = 2,
    /// A slice has the wrong length.
    BadLength = 3,
    /// A bit byte is neither 0 nor 1.
    BadBit = 4,
    /// A normal burst is wanted with a training sequence other than 1 or 2.
    BadTraining = 5,
    /// A slot number to send is out of range. (A [`TdmaTime`](crate::TdmaTime) never is.)
    BadSlot = 6,
    /// A slot kind is not known. (A [`SlotType`](crate::logger::SlotType) always is.)
    BadKind = 7,
    /// The counter is below the one after the last accepted sample.
    PastCounter = 10,
    /// No slot waits to be taken. ([`take_demodulated_slot`](crate::demodulator::Demodulator::take_demodulated_slot) says
    /// `None`.)
    NoSlot = 11,
    /// The sender needs the next slot.
    NeedMoreData = 12,
    /// The receiver told to follow finds its own timing.
    NotFollowing = 13,
}

impl Refusal {
    /// Its number in the table.
    pub fn number(self) -> u32 {
        self as u32
    }

    /// What the library answered: 0 is no refusal.
    pub(crate) fn of(number: u32) -> Option<Refusal> {
        Some(match number {
            0 => return None,
            1 => Refusal::BadSample,
            2 => Refusal::BadCounter,
            3 => Refusal::BadLength,
            4 => Refusal::BadBit,
            5 => Refusal::BadTraining,
            6 => Refusal::BadSlot,
            7 => Refusal::BadKind,
            10 => Refusal::PastCounter,
            11 => Refusal::NoSlot,
            12 => Refusal::NeedMoreData,
            13 => Refusal::NotFollowing,
            _ => unreachable!("the library has no refusal {number}"),
        })
    }

    /// `Ok` where the library accepted the call.
    pub(crate) fn none(number: u32) -> Result<(), Refusal> {
        Refusal::of(number).map_or(Ok(()), Err)
    }
}

impl fmt::Display for Refusal {
    fn fmt(&self, out: &mut fmt::Formatter) -> fmt::Result {
        let why = match self {
            Refusal::BadSample => "a sample part is no number or beyond 1,024",
            Refusal::BadCounter => "a sample counter is out of range",
            Refusal::BadLength => "a slice has the wrong length",
            Refusal::BadBit => "a bit byte is neither 0 nor 1",
            Refusal::BadTraining => "a normal burst has training sequence 1 or 2",
            Refusal::BadSlot => "a slot number is out of range",
            Refusal::BadKind => "a slot kind is not known",
            Refusal::PastCounter => "the counter is below the next one",
            Refusal::NoSlot => "no slot waits to be taken",
            Refusal::NeedMoreData => "the sender needs the next slot",
            Refusal::NotFollowing => "the receiver finds its own timing",
        };
        write!(out, "refused={}: {why}", self.number())
    }
}

impl Error for Refusal {}
