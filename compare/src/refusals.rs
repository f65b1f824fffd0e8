//! Document 01's refusals: their numbers and the tests of the input that several calls share.

/// A refusal's number. Calls test in the order of the numbers, so the smallest that holds is given.
pub type Refusal = u32;

pub const BAD_SAMPLE: Refusal = 1;
pub const BAD_COUNTER: Refusal = 2;
pub const BAD_LENGTH: Refusal = 3;
pub const BAD_BIT: Refusal = 4;
pub const BAD_TRAINING: Refusal = 5;
pub const BAD_SLOT: Refusal = 6;
pub const BAD_KIND: Refusal = 7;
pub const PAST_COUNTER: Refusal = 10;
pub const NO_SLOT: Refusal = 11;
pub const NEED_MORE_DATA: Refusal = 12;
pub const NOT_FOLLOWING: Refusal = 13;

pub const LARGEST_COUNTER: i64 = (1 << 37) - 1;
pub const LARGEST_PART: f32 = 1024.0;

pub fn refuse_if(holds: bool, number: Refusal) -> Result<(), Refusal> {
    if holds {
        Err(number)
    } else {
        Ok(())
    }
}

/// NaN, infinite, or beyond 1,024 either side of zero.
pub fn beyond(part: f32) -> bool {
    !(-LARGEST_PART..=LARGEST_PART).contains(&part)
}

pub fn out_of_count(counter: i64) -> bool {
    !(0..=LARGEST_COUNTER).contains(&counter)
}

pub fn not_bits(bytes: &[u8]) -> bool {
    bytes.iter().any(|&byte| byte > 1)
}

#[cfg(test)]
mod tests {
    use super::*;

    #[test]
    fn limits() {
        assert!(!beyond(1024.0) && !beyond(-1024.0));
        assert!(beyond(1024f32.next_up()) && beyond(f32::NAN) && beyond(f32::NEG_INFINITY));
        assert!(!out_of_count(0) && !out_of_count(137_438_953_471));
        assert!(out_of_count(-1) && out_of_count(137_438_953_472));
    }
}
