//! Lines that are no calls, or whose receiver or sender was never made.

use super::random::Random;

/// Calls of every sort. In a list without `new` and `txnew` the `s`, `t`, `f` and `w` of these answer `error`.
const CALLS: [&str; 11] = [
    "s 0 0 00000000 3f800000",
    "t 1 510 254 254",
    "f 2 3",
    "w 0 0 -",
    "w 4 1 =01",
    "j 0 6 =01",
    "b S =01",
    "d 1 =0 =1 =0",
    "l 3f800000 bf800000",
    "m 40400000 40800000",
    "a 3f800000 3f800000",
];

/// How many of these, from the first on, need a receiver or a sender.
const NEED_MAKING: usize = 5;

const NO_CALLS: [&str; 36] = [
    "",
    " ",
    "=",
    "-",
    "q",
    "new",
    "new 4 0",
    "new 0 4",
    "new -1 0",
    "txnew 0",
    "lnew 0",
    "s 4 0 00000000 00000000",
    "s 0 9223372036854775808 00000000 00000000",
    "s 0 -9223372036854775809 00000000 00000000",
    "s 0 1.0 00000000 00000000",
    "s 0 0x10 00000000 00000000",
    "s 0 0 0000000 00000000",
    "s 0 0 000000000 00000000",
    "s 0 0 0000000g 00000000",
    "s 0 0 -0000001 00000000",
    "t 0 4097 254 254",
    "t 0 510 -1 254",
    "t 0 510 254",
    "f 0 4",
    "w 0 4294967296 -",
    "w 0 -1 -",
    "w 0 0 --",
    "w 0 0 01",
    "j 4294967296 6 =",
    "j 0 4097 =",
    "b SN =",
    "b S =0a",
    "b S ==0",
    "d s = = =",
    "d 4294967296 = = =",
    "d 1 = =",
];

pub fn line(random: &mut Random) -> String {
    match random.below(4) {
        0 => random.pick(&CALLS[..NEED_MAKING]).into(),
        1 => random.pick(&NO_CALLS).into(),
        _ => {
            let call = random.pick(&CALLS);
            damaged(random, call)
        }
    }
}

/// A line near a call that is none.
pub fn damaged(random: &mut Random, call: &str) -> String {
    let first_gap = |gap: &str| {
        if call.contains(' ') {
            call.replacen(' ', gap, 1)
        } else {
            format!("{call}{gap}")
        }
    };
    match random.below(10) {
        0 => format!("{call} "),
        1 => format!(" {call}"),
        2 => format!("{call}\r"),
        3 => format!("{call} 0"),
        4 => format!("x{call}"),
        5 => in_capitals(call),
        6 => first_gap("  "),
        7 => first_gap(" +"),
        8 => first_gap("\t"),
        _ => call.rsplit_once(' ').map_or("", |(head, _)| head).into(),
    }
}

/// The capital `T` is a take too.
fn in_capitals(call: &str) -> String {
    match call.split_once(' ') {
        Some(("t" | "T", lengths)) => format!("Tt {lengths}"),
        _ => call.to_uppercase(),
    }
}

#[cfg(test)]
mod tests {
    use super::*;
    use crate::calls;
    use crate::session::Session;

    #[test]
    fn every_line_is_an_error() {
        let mut random = Random::new(1);
        let mut session = Session::default();
        for _ in 0..10_000 {
            let line = line(&mut random);
            assert_eq!(session.answer(&line), "error", "{line:?}");
        }
        for call in ["txnew", "lnew", "t 0 510 254 254", "T 0 510 254 254"] {
            for _ in 0..100 {
                let line = damaged(&mut random, call);
                assert!(calls::read(&line).is_none(), "{line:?}");
            }
        }
    }
}
