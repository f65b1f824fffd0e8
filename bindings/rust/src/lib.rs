#![doc = include_str!("../README.md")]

pub mod burst_consts;
pub mod demodulator;
pub mod dsp_types;
mod ffi;
pub mod logger;
pub mod modulator;
mod refusal;
pub mod rxtx_dev;
pub mod slotter;
mod tetra_core;

pub use refusal::Refusal;
pub use tetra_core::{TdmaTime, TrainingSequence};
