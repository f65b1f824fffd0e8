//! Times this library and the original from one driver, in turn, and prints them side by side. What they answer must be
//! equal; the original is as published, without document 01's stand-ins. liquid-dsp is timed too where it is installed.

mod modem;
#[cfg(feature = "liquid")]
mod peers;
mod signal;

use std::time::Duration;

/// Prints a row for each competitor; the first is what the others are held to.
fn print<const N: usize>(names: [&str; N], times: [Duration; N], count: usize) {
    for (name, time) in names.iter().zip(times) {
        let nanoseconds = time.as_secs_f64() * 1e9 / count as f64;
        let ratio = time.as_secs_f64() / times[0].as_secs_f64();
        println!("{name:<54} {nanoseconds:>8.1} {ratio:>8.2}");
    }
}

fn main() {
    println!("{:<54} {:>8} {:>8}", "", "ns", "ratio");
    signal::bench();
    modem::bench();
    #[cfg(feature = "liquid")]
    peers::bench();
    #[cfg(not(feature = "liquid"))]
    println!("liquid-dsp: left out, it is not installed");
}
