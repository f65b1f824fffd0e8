//! Receives a downlink with the crate in bindings/rust: raw samples on standard input, a line for each slot on standard output,
//! as `tetra_rx --no-bits` prints them.
//!
//!     cargo run --offline --manifest-path bindings/rust/Cargo.toml --example receive <capture.cf32

use std::io::{self, Read};

use tetra_modem::demodulator::{Demodulator, Mode, Stop};
use tetra_modem::dsp_types::ComplexSample;
use tetra_modem::TrainingSequence;

fn name(train_type: TrainingSequence) -> &'static str {
    match train_type {
        TrainingSequence::NotFound => "none",
        TrainingSequence::NormalTrainSeq1 => "normal1",
        TrainingSequence::NormalTrainSeq2 => "normal2",
        TrainingSequence::ExtendedTrainSeq => "extended",
        TrainingSequence::SyncTrainSeq => "sync",
    }
}

fn sample(bytes: &[u8]) -> ComplexSample {
    let part =
        |at: usize| f32::from_le_bytes([bytes[at], bytes[at + 1], bytes[at + 2], bytes[at + 3]]);
    ComplexSample::new(part(0), part(4))
}

fn main() -> io::Result<()> {
    let mut bytes = Vec::new();
    io::stdin().read_to_end(&mut bytes)?;
    let samples: Vec<ComplexSample> = bytes.chunks_exact(8).map(sample).collect();

    let mut demodulator = Demodulator::new(Mode::DlUnsynchronized);
    let mut at = 0;
    while at < samples.len() {
        let fed = demodulator.feed(&samples[at..], at as i64);
        at += fed.taken;
        if let Stop::Refused(refusal) = fed.stop {
            eprintln!("sample {at} {refusal}; taken as missing");
            at += 1;
        }
        if let Some(slot) = demodulator.take_demodulated_slot() {
            println!(
                "slot={} sample={} type={} errors={}",
                slot.time.to_int(),
                slot.closing_counter,
                name(slot.slot.train_type),
                slot.slot.train_errs
            );
        }
    }
    Ok(())
}
