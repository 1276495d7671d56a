//! Whole numbers too large for the machine's own.

/// How many 64-bit words a natural has.
const WORDS: usize = 8;

/// A whole number below 2 to the power of 512, its most significant word first.
///
/// That is room for the product of 16 periods, which is at most 10 to the power of 144, and for
/// 16 times such a product.
#[derive(Clone, Copy, Debug, PartialEq, Eq, PartialOrd, Ord)]
pub struct Natural([u64; WORDS]);

impl Natural {
    /// The natural with the value of a machine number.
    pub fn new(value: u64) -> Natural {
        let mut words = [0; WORDS];
        words[WORDS - 1] = value;
        Natural(words)
    }

    /// The sum of two naturals.
    pub fn plus(self, other: Natural) -> Natural {
        let mut words = self.0;
        let mut carry = 0;
        for (word, addend) in words.iter_mut().zip(other.0).rev() {
            carry += u128::from(*word) + u128::from(addend);
            *word = carry as u64;
            carry >>= 64;
        }
        assert_eq!(carry, 0, "a sum needs more than 512 bits");
        Natural(words)
    }

    /// The product of a natural and a machine number.
    pub fn times(self, factor: u64) -> Natural {
        let mut words = self.0;
        let mut carry = 0;
        for word in words.iter_mut().rev() {
            carry += u128::from(*word) * u128::from(factor);
            *word = carry as u64;
            carry >>= 64;
        }
        assert_eq!(carry, 0, "a product needs more than 512 bits");
        Natural(words)
    }
}

#[cfg(test)]
mod tests {
    use super::Natural;

    /// Ten to the power of that many nines.
    fn power_of_ten(nines: usize) -> Natural {
        (0..nines).fold(Natural::new(1), |power, _| power.times(1_000_000_000))
    }

    #[test]
    fn a_product_that_fits_the_machine_is_the_machines() {
        let product = Natural::new(999_999_999).times(999_999_999);
        assert_eq!(product, Natural::new(999_999_998_000_000_001));
    }

    #[test]
    fn a_product_carries_into_the_next_word() {
        // (2^64 - 1)(2^64 - 1) + 2^65 = 2^128 + 1.
        let square = Natural::new(u64::MAX).times(u64::MAX);
        let two_to_65 = Natural::new(1 << 63).times(4);
        let two_to_128 = Natural::new(1 << 63).times(1 << 63).times(4);
        assert_eq!(square.plus(two_to_65), two_to_128.plus(Natural::new(1)));
    }

    #[test]
    fn a_sum_carries_through_every_word() {
        // 2^511 is 2^63 and seven words of zeros; one less is 2^63 - 1 and seven words of ones.
        let append = |number: Natural, word| {
            let shifted = number.times(1 << 32).times(1 << 32);
            shifted.plus(Natural::new(word))
        };
        let power = [0; 7].into_iter().fold(Natural::new(1 << 63), append);
        let ones = [u64::MAX; 7].into_iter();
        let one_less = ones.fold(Natural::new((1 << 63) - 1), append);
        assert_eq!(one_less.plus(Natural::new(1)), power);
    }

    #[test]
    fn the_order_is_that_of_the_numbers() {
        assert!(Natural::new(2) < Natural::new(3));
        assert!(Natural::new(u64::MAX) < Natural::new(1 << 63).times(2));
        assert!(power_of_ten(15).times(999_999_999) < power_of_ten(16));
        assert!(power_of_ten(16) < power_of_ten(16).plus(Natural::new(1)));
    }

    #[test]
    fn there_is_room_for_sixteen_times_the_product_of_sixteen_periods() {
        let product = power_of_ten(16);
        assert_eq!(
            product.times(16),
            (1..16).fold(product, |sum, _| sum.plus(product))
        );
    }

    #[test]
    #[should_panic(expected = "a product needs more than 512 bits")]
    fn a_product_beyond_the_room_is_never_cut() {
        power_of_ten(18);
    }
}
