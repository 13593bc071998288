//! Units, ranges, codes and places.

/// A sound range of one axis.
#[derive(Clone, Copy, Debug)]
pub struct Range {
    pub bits: u8,
    /// The ends as they are written in a file: zero has no sign.
    pub low_word: u32,
    pub high_word: u32,
    /// The lower end and the length, in units.
    low: i64,
    length: i64,
    /// The greatest code.
    most: i64,
}

/// The farthest end of a range, in units.
const FARTHEST: u32 = 1 << 24;

/// The whole number of units that a floating word stands for.
pub fn units(word: u32) -> Option<i64> {
    let exponent = word >> 23 & 0xFF;
    let fraction = word & 0x7F_FFFF;
    if exponent == 0 && fraction == 0 {
        return Some(0);
    }
    // Below 2^-8 there is no whole unit but zero, and from 2^17 on an end is too far.
    if !(119..=143).contains(&exponent) {
        return None;
    }
    let mantissa = 1 << 23 | fraction;
    let magnitude = if exponent >= 142 {
        mantissa << (exponent - 142)
    } else {
        let below = 142 - exponent;
        if mantissa.trailing_zeros() < below {
            return None;
        }
        mantissa >> below
    };
    if magnitude > FARTHEST {
        return None;
    }
    Some(if word >> 31 == 1 { -i64::from(magnitude) } else { i64::from(magnitude) })
}

/// The word of an end as it is written: negative zero becomes zero.
fn written(word: u32) -> u32 {
    if word == 0x8000_0000 {
        0
    } else {
        word
    }
}

impl Range {
    /// A range from its bits and the words of its ends, or the number of the refusal.
    pub fn new(bits: u8, low_word: u32, high_word: u32) -> Result<Range, u32> {
        if !(1..=24).contains(&bits) {
            return Err(12);
        }
        let (Some(low), Some(high)) = (units(low_word), units(high_word)) else {
            return Err(13);
        };
        if low >= high {
            return Err(14);
        }
        Ok(Range {
            bits,
            low_word: written(low_word),
            high_word: written(high_word),
            low,
            length: high - low,
            most: (1 << bits) - 1,
        })
    }

    /// The greatest code.
    pub fn most(&self) -> i32 {
        self.most as i32
    }

    /// The nearest code of a coordinate in units.
    #[inline]
    pub fn code(&self, coordinate: i32) -> Option<i32> {
        let above = i64::from(coordinate) - self.low;
        if above < 0 || above > self.length {
            return None;
        }
        Some(((2 * above * self.most + self.length) / (2 * self.length)) as i32)
    }

    /// The nearest step to a code's exact fraction.
    #[inline]
    pub fn place(&self, code: i32) -> i32 {
        let exact = self.most * self.low + i64::from(code) * self.length;
        (exact + 8 * self.most).div_euclid(16 * self.most) as i32
    }
}
