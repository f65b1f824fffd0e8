//! The calls of a list and how a line is read.

use crate::bursts::Wanted;
use crate::phy::components::demodulator::Mode;
use crate::phy::components::dsp_types::{ComplexSample, SampleCount};
use crate::uplink_bursts::UplinkWanted;

pub const RECEIVERS: usize = 4;
pub const LONGEST_SLICE: usize = 4096;

pub enum Call {
    /// Receiver and mode.
    NewReceiver(usize, Mode),
    /// Receiver, counter and sample.
    Sample(usize, SampleCount, ComplexSample),
    /// Receiver, the lengths of the lent slices, and whether the closing counter is told.
    Take(usize, [usize; 3], bool),
    /// The receiver told to follow, and whom.
    Follow(usize, usize),
    NewSender,
    /// Counter, slot number and the slot's bits.
    Send(SampleCount, u32, Option<Vec<u8>>),
    /// Kind, length of the answer bytes, bits.
    Judge(u32, usize, Vec<u8>),
    /// The burst's letter and its blocks, joined.
    BuildJoined(char, Vec<u8>),
    Build(Wanted, [Vec<u8>; 3]),
    BuildUplink(UplinkWanted, [Vec<u8>; 2]),
    NewLine,
    Filter(ComplexSample),
    Magnitude(ComplexSample),
    QuarterTurns(f32, f32),
}

/// Reads one line; `None` where it is no call.
pub fn read(line: &str) -> Option<Call> {
    let fields: Vec<&str> = line.split(' ').collect();
    Some(match fields[..] {
        ["new", r, mode] => Call::NewReceiver(receiver(r)?, mode_of(mode)?),
        ["s", r, counter, re, im] => Call::Sample(receiver(r)?, number(counter)?, sample(re, im)?),
        [letter @ ("t" | "T"), r, full, half1, half2] => {
            let lengths = [length(full)?, length(half1)?, length(half2)?];
            Call::Take(receiver(r)?, lengths, letter == "T")
        }
        ["f", r, leader] => Call::Follow(receiver(r)?, receiver(leader)?),
        ["txnew"] => Call::NewSender,
        ["w", counter, slot, "-"] => Call::Send(number(counter)?, number(slot)?, None),
        ["w", counter, slot, given] => {
            Call::Send(number(counter)?, number(slot)?, Some(bits(given)?))
        }
        ["j", kind, answer, given] => Call::Judge(number(kind)?, length(answer)?, bits(given)?),
        ["b", letter, given] => Call::BuildJoined(letter_of(letter)?, bits(given)?),
        ["d", sequence, blk1, bbk, blk2] => {
            Call::Build(wanted(sequence)?, [bits(blk1)?, bits(bbk)?, bits(blk2)?])
        }
        ["u", sequence, blk1, blk2] => {
            let wanted = UplinkWanted::Normal(number(sequence)?);
            Call::BuildUplink(wanted, [bytes(blk1)?, bytes(blk2)?])
        }
        ["c", blk1, blk2] => Call::BuildUplink(UplinkWanted::Control, [bytes(blk1)?, bytes(blk2)?]),
        ["lnew"] => Call::NewLine,
        ["l", re, im] => Call::Filter(sample(re, im)?),
        ["m", re, im] => Call::Magnitude(sample(re, im)?),
        ["a", i, q] => Call::QuarterTurns(part(i)?, part(q)?),
        _ => return None,
    })
}

fn number<T: std::str::FromStr>(text: &str) -> Option<T> {
    if text.starts_with('+') {
        return None;
    }
    text.parse().ok()
}

fn receiver(text: &str) -> Option<usize> {
    number(text).filter(|&r| r < RECEIVERS)
}

fn length(text: &str) -> Option<usize> {
    number(text).filter(|&n| n <= LONGEST_SLICE)
}

fn mode_of(text: &str) -> Option<Mode> {
    let modes = [Mode::Idle, Mode::DlUnsynchronized, Mode::Dl, Mode::Ul];
    modes.get(number::<usize>(text)?).copied()
}

fn wanted(sequence: &str) -> Option<Wanted> {
    match sequence {
        "S" => Some(Wanted::Sync),
        _ => number(sequence).map(Wanted::Normal),
    }
}

fn letter_of(text: &str) -> Option<char> {
    let letter = text.chars().next()?;
    (text.len() == 1 && letter.is_ascii_alphabetic()).then_some(letter)
}

/// `=` and one decimal digit a byte.
fn bits(text: &str) -> Option<Vec<u8>> {
    text.strip_prefix('=')?
        .bytes()
        .map(|digit| digit.is_ascii_digit().then(|| digit - b'0'))
        .collect()
}

/// Bits, or `#` and two hexadecimal digits a byte.
fn bytes(text: &str) -> Option<Vec<u8>> {
    let Some(pairs) = text.strip_prefix('#') else {
        return bits(text);
    };
    let digits: Option<Vec<u32>> = pairs.chars().map(|digit| digit.to_digit(16)).collect();
    digits?
        .chunks(2)
        .map(|pair| match pair {
            [high, low] => Some((16 * high + low) as u8),
            _ => None,
        })
        .collect()
}

fn sample(re: &str, im: &str) -> Option<ComplexSample> {
    Some(ComplexSample {
        re: part(re)?,
        im: part(im)?,
    })
}

/// An f32's bit pattern, 8 hexadecimal digits.
fn part(text: &str) -> Option<f32> {
    if text.len() != 8 || text.starts_with('+') {
        return None;
    }
    u32::from_str_radix(text, 16).ok().map(f32::from_bits)
}

#[cfg(test)]
mod tests {
    use super::*;

    #[test]
    fn lines_that_are_no_calls() {
        let lines = [
            "",
            " ",
            "new 4 0",
            "new 0 4",
            "new 0 +1",
            "new  0 1",
            "txnew ",
            " txnew",
            "s 0 9223372036854775808 00000000 00000000",
            "s 0 0 0000000 00000000",
            "s 0 0 +0000000 00000000",
            "t 0 4097 0 0",
            "T 4 510 254 254",
            "T 0 510 254",
            "T 0 4097 0 0",
            "T 0 +510 254 254",
            "w 0 4294967296 -",
            "w 0 0 =a",
            "b SN =",
            "b S -",
            "d x = = =",
            "d -1 = = =",
            "d 1 # # #",
            "u 4294967296 # #",
            "u +1 # #",
            "u S = =",
            "u 1 # -",
            "u 1 #",
            "u 1 #0 #",
            "u 1 #+1 #",
            "c #0g #",
            "c =a =",
            "c # #001",
        ];
        for line in lines {
            assert!(read(line).is_none(), "{line:?}");
        }
    }

    #[test]
    fn bytes_in_both_forms() {
        assert_eq!(bytes("=019"), Some(vec![0, 1, 9]));
        assert_eq!(bytes("#0001fFA0"), Some(vec![0, 1, 255, 160]));
        assert_eq!((bytes("="), bytes("#")), (Some(vec![]), Some(vec![])));
    }
}
