//! The original modem with document 01's stand-ins and refusals, run from call lists.

// The original takes these names for crates; this one stands for them.
extern crate self as num;
extern crate self as num_complex;
extern crate self as tetra_core;
extern crate self as tetra_pdus;
extern crate self as tracing;

pub mod bursts;
pub mod calls;
pub mod generate;
pub mod receiver;
pub mod refusals;
pub mod session;
mod shims;
pub mod stand_ins;
pub mod uplink_bursts;

pub use shims::{complex, zero, Complex};
pub use stand_ins::{TdmaTime, TrainingSequence};

include!(concat!(env!("OUT_DIR"), "/original.rs"));
