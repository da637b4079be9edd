//! Turns metres into centimetres, with their mark, and back by exact whole numbers: no floating-point operation is used.

use std::cmp::Ordering;

use crate::refusals;

const MOST_METRES: u128 = 10_000_000;
pub const MOST_CENTIMETRES: i64 = 1_000_000_000;
const HIDDEN_BIT: u128 = 1 << 52;

/// The whole number nearest to number / parts, a tie going to the even one.
fn nearest(number: u128, parts: u128) -> u128 {
    let below = number / parts;
    let twice_over = 2 * (number % parts);
    let up = twice_over > parts || (twice_over == parts && below % 2 == 1);
    below + u128::from(up)
}

/// Where the exact hundredfold of a number lies, as seen from the centimetres that it was rounded to (02, A1).
pub type Mark = Ordering;

/// A mantissa and how often it is halved to give the size of a binary64 pattern. Refusal: 3.
fn size(pattern: u64) -> Result<(u128, u32), u32> {
    let fraction = u128::from(pattern) % HIDDEN_BIT;
    let (mantissa, halvings) = match (pattern >> 52 & 0x7ff) as u32 {
        0 => (fraction, 1074),
        // 2^52 or more, infinite or NaN.
        1075.. => return Err(refusals::NUMBER),
        exponent => (fraction + HIDDEN_BIT, 1075 - exponent),
    };
    // 100 times the mantissa is less than 2^60: 100 halvings or more all leave far less than a half.
    let halvings = halvings.min(100);
    if mantissa > MOST_METRES << halvings {
        return Err(refusals::NUMBER);
    }
    Ok((mantissa, halvings))
}

/// The mark of a number that is not below zero, by binary digits alone. Its hundredfold has those of 25 times the mantissa,
/// the halvings less two of them behind the point; as 25 is odd, they end in as many zeros as the mantissa's own.
fn mark_by_digits(mantissa: u128, halvings: u32) -> Mark {
    let behind = halvings.saturating_sub(2);
    if mantissa == 0 || mantissa.trailing_zeros() >= behind {
        return Ordering::Equal;
    }
    let digits = 25 * mantissa;
    let [odd, half] = [behind, behind - 1].map(|place| digits >> place & 1 == 1);
    let only_a_half = mantissa.trailing_zeros() + 1 == behind;
    let rounded_up = if only_a_half { odd } else { half };
    if rounded_up {
        Ordering::Less
    } else {
        Ordering::Greater
    }
}

/// The centimetres of a binary64 pattern in metres (01, Metres to centimetres and back), and their mark. The program stops
/// if the digits disagree with a comparison of the numbers themselves.
pub fn centimetres(pattern: u64) -> Result<(i64, Mark), u32> {
    let (mantissa, halvings) = size(pattern)?;
    let hundredfold = 100 * mantissa;
    let whole = nearest(hundredfold, 1 << halvings);
    let mark = mark_by_digits(mantissa, halvings);
    assert_eq!(mark, hundredfold.cmp(&(whole << halvings)), "the mark of {pattern:016x}");
    let size = whole as i64;
    Ok(if pattern >> 63 == 1 { (-size, mark.reverse()) } else { (size, mark) })
}

/// The binary64 pattern of centimetres in metres (01, Metres to centimetres and back).
pub fn metres(centimetres: i64) -> Result<u64, u32> {
    if centimetres.unsigned_abs() > MOST_CENTIMETRES.unsigned_abs() {
        return Err(refusals::NUMBER);
    }
    Ok(pattern_of(centimetres, 100))
}

/// The pattern of the binary64 number nearest to number / parts, a tie going to the even one. The quotient must be less
/// than 2^53 in size; with `parts` of 64 bits it is never too small for a normal number.
pub fn pattern_of(number: i64, parts: u64) -> u64 {
    if number == 0 {
        return 0;
    }
    let size = u128::from(number.unsigned_abs());
    let parts = u128::from(parts);
    // As many doublings as give the quotient its 53 binary digits.
    let mut doublings = 0;
    while size << doublings < parts << 52 {
        doublings += 1;
    }
    let mantissa = nearest(size << doublings, parts);
    // A mantissa rounded up to 2^53 carries into the exponent, as it should.
    let pattern = ((1075 - doublings) << 52) + (mantissa - HIDDEN_BIT) as u64;
    if number < 0 {
        pattern | 1 << 63
    } else {
        pattern
    }
}

#[cfg(test)]
mod tests {
    use super::*;
    use std::cmp::Ordering::{Equal, Greater, Less};

    #[test]
    fn p10_the_four_roundings() {
        let cases = [(0.125f64, 12, Greater), (0.375, 38, Less), (-0.125, -12, Less), (0.625, 62, Greater)];
        for (metres, whole, mark) in cases {
            assert_eq!(centimetres(metres.to_bits()), Ok((whole, mark)));
        }
    }

    #[test]
    fn no_number_is_rounded_twice() {
        let cases = [(0.005f64, 1, Less), (0.015, 1, Greater), (0.025, 3, Less), (-0.001, 0, Less), (-0.01, -1, Less)];
        for (metres, whole, mark) in cases {
            assert_eq!(centimetres(metres.to_bits()), Ok((whole, mark)));
        }
    }

    #[test]
    fn only_whole_quarters_of_a_metre_are_exact() {
        for step in -4000..=4000i64 {
            let sixteenths = centimetres(pattern_of(step, 16)).unwrap();
            assert_eq!(sixteenths.1 == Equal, step % 4 == 0, "{step}");
            let (whole, mark) = centimetres(pattern_of(step, 100)).unwrap();
            assert_eq!((whole, mark == Equal), (step, step % 25 == 0));
        }
        assert_eq!(centimetres(300.01f64.to_bits()), Ok((30001, Less)));
        assert_eq!(centimetres(300.75f64.to_bits()), Ok((30075, Equal)));
    }

    #[test]
    fn the_limit_is_tested_before_rounding() {
        let most = 10_000_000f64.to_bits();
        assert_eq!(centimetres(most), Ok((1_000_000_000, Equal)));
        assert_eq!(centimetres(most | 1 << 63), Ok((-1_000_000_000, Equal)));
        assert_eq!(centimetres(most - 1), Ok((1_000_000_000, Less)));
        for pattern in [most + 1, (most + 1) | (1 << 63), f64::MAX.to_bits()] {
            assert_eq!(centimetres(pattern), Err(3));
        }
    }

    #[test]
    fn nan_and_infinities_are_refused_and_minus_zero_is_nothing() {
        for pattern in [0x7ff0 << 48, 0xfff0 << 48, 0x7ff8 << 48, (0x7ff0 << 48) + 1, u64::MAX] {
            assert_eq!(centimetres(pattern), Err(3));
        }
        for (pattern, mark) in [(0, Equal), (1 << 63, Equal), (1, Greater), (1 << 63 | 1, Less), ((1 << 52) - 1, Greater)] {
            assert_eq!(centimetres(pattern), Ok((0, mark)));
        }
    }

    #[test]
    fn metres_have_the_pattern_of_one_division() {
        assert_eq!(metres(0), Ok(0));
        assert_eq!(metres(100), Ok(1f64.to_bits()));
        assert_eq!(metres(-20000), Ok((-200f64).to_bits()));
        assert_eq!(metres(30001), Ok(300.01f64.to_bits()));
        assert_eq!(metres(1_000_000_000), Ok(10_000_000f64.to_bits()));
        assert_eq!(metres(1_000_000_001), Err(3));
        assert_eq!(metres(-1_000_000_001), Err(3));
        assert_eq!(metres(i64::MIN), Err(3));
    }

    #[test]
    fn metres_are_read_back() {
        for step in 0..200_000i64 {
            let whole = step * 9_973 - 997_300_000;
            assert_eq!(centimetres(metres(whole).unwrap()).unwrap().0, whole);
            assert_eq!(metres(whole).unwrap(), (whole as f64 / 100.0).to_bits());
        }
    }
}
