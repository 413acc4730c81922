//! "Every finite single-format float is a whole number times 2^−149."

use std::cmp::Ordering;

/// A whole number below 2^320, as ten digits of 32 bits, the lowest first.
///
/// The largest float is below 2^128, which is 2^277 here, and it is multiplied by at most
/// 4,094, twice the largest level: 320 places are enough, and `times` asserts it.
#[derive(Clone, Copy, Debug, PartialEq, Eq)]
pub(crate) struct Whole([u32; 10]);

impl Whole {
    /// The whole number of a finite float's magnitude, by IEEE 754: with exponent field 0 it is
    /// fraction × 2^−149, else (2^23 + fraction) × 2^(field − 150).
    pub(crate) fn of_magnitude(float: f32) -> Whole {
        let bits = float.to_bits();
        let fraction = bits % (1 << 23);
        let field = bits / (1 << 23) % 256;
        assert_ne!(field, 255, "infinite or not a number");
        if field == 0 {
            Whole::shifted(fraction, 0)
        } else {
            Whole::shifted((1 << 23) + fraction, field - 1)
        }
    }

    /// number × 2^places. The number has 24 bits, so two digits hold it.
    fn shifted(number: u32, places: u32) -> Whole {
        let digit = (places / 32) as usize;
        let two_digits = u64::from(number) * 2_u64.pow(places % 32);
        let mut digits = [0; 10];
        digits[digit] = (two_digits % (1 << 32)) as u32;
        digits[digit + 1] = (two_digits / (1 << 32)) as u32;
        Whole(digits)
    }

    /// The product, digit by digit.
    pub(crate) fn times(self, factor: u32) -> Whole {
        let mut digits = [0; 10];
        let mut carry = 0;
        for (digit, old) in digits.iter_mut().zip(self.0) {
            let product = u64::from(old) * u64::from(factor) + carry;
            *digit = (product % (1 << 32)) as u32;
            carry = product / (1 << 32);
        }
        assert_eq!(carry, 0, "320 places are not enough");
        Whole(digits)
    }
}

impl Ord for Whole {
    /// The highest digit that differs decides.
    fn cmp(&self, other: &Whole) -> Ordering {
        self.0.iter().rev().cmp(other.0.iter().rev())
    }
}

impl PartialOrd for Whole {
    fn partial_cmp(&self, other: &Whole) -> Option<Ordering> {
        Some(self.cmp(other))
    }
}

#[cfg(test)]
mod tests {
    use super::Whole;

    fn small(number: u32) -> Whole {
        Whole([number, 0, 0, 0, 0, 0, 0, 0, 0, 0])
    }

    #[test]
    fn floats_are_whole_multiples_of_the_smallest() {
        let of = Whole::of_magnitude;
        assert_eq!(of(0.0), small(0));
        assert_eq!(of(-0.0), small(0));
        assert_eq!(of(f32::from_bits(1)), small(1));
        assert_eq!(of(-f32::from_bits(0x7F_FFFF)), small(0x7F_FFFF));
        assert_eq!(of(f32::MIN_POSITIVE), small(0x80_0000));
        assert_eq!(of(2.0 * f32::MIN_POSITIVE), small(0x100_0000));
        // 1 is 2^149: digit 4, place 21.
        let mut one = [0; 10];
        one[4] = 1 << 21;
        assert_eq!(of(1.0), Whole(one));
        // The largest float is (2^24 − 1) × 2^253: places 253 to 276.
        let mut largest = [0; 10];
        largest[7] = 0b111 << 29;
        largest[8] = (1 << 21) - 1;
        assert_eq!(of(f32::MAX), Whole(largest));
        assert_eq!(of(f32::MIN), Whole(largest));
    }

    #[test]
    fn order_and_products_are_those_of_the_floats() {
        let of = Whole::of_magnitude;
        let ascending = [
            0.0,
            f32::from_bits(1),
            f32::MIN_POSITIVE,
            1e-30,
            0.5,
            1.0,
            1.5,
            3e7,
            f32::MAX,
        ];
        for pair in ascending.windows(2) {
            assert!(of(pair[0]) < of(pair[1]));
        }
        assert_eq!(of(0.375), of(0.125).times(3));
        assert_eq!(of(127.0), of(1.0).times(127));
        assert!(of(f32::MAX).times(4094) > of(f32::MAX).times(4093));
    }
}
