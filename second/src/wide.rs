//! Sums, products and quotients of numbers that 128 bits don't hold.

use crate::Whole;

/// A whole number from 0 to below 2^256, in parts of 64 bits, the highest first:
/// of two numbers that one is greater whose first differing part is.
#[derive(Clone, Copy, Debug, PartialEq, Eq, PartialOrd, Ord)]
pub struct Wide([u64; 4]);

impl Wide {
    pub const NOUGHT: Wide = Wide([0, 0, 0, 0]);
    const ONE: Wide = Wide([0, 0, 0, 1]);

    /// As on paper: part by part from the lowest, what a part can't hold going to
    /// the next.
    pub fn times(self, factor: u64) -> Wide {
        let mut product = [0; 4];
        let mut carried = 0;
        for (place, part) in product.iter_mut().zip(self.0).rev() {
            let sum = u128::from(part) * u128::from(factor) + carried;
            *place = sum as u64;
            carried = sum >> 64;
        }
        assert!(carried == 0, "a product past 256 bits");
        Wide(product)
    }

    /// Likewise.
    pub fn plus(self, other: Wide) -> Wide {
        let mut sum = [0; 4];
        let mut carried = 0;
        let parts = self.0.into_iter().zip(other.0);
        for (place, (part, added)) in sum.iter_mut().zip(parts).rev() {
            let both = u128::from(part) + u128::from(added) + carried;
            *place = both as u64;
            carried = both >> 64;
        }
        assert!(carried == 0, "a sum past 256 bits");
        Wide(sum)
    }

    /// The product of factors from 0 to below 2^64.
    pub fn product<'a>(factors: impl IntoIterator<Item = &'a Whole>) -> Wide {
        factors.into_iter().fold(Wide::ONE, |product, factor| {
            product.times(u64::try_from(*factor).expect("a factor from 0 to below 2^64"))
        })
    }

    /// The quotient rounded up: the least whole number that, times the lower number,
    /// isn't below this one. The lower number is above 0.
    pub fn over_rounded_up(&self, under: &Wide) -> Whole {
        let is_too_small = |quotient: u64| under.times(quotient) < *self;
        match is_too_small(0) {
            true => (greatest_where(is_too_small) + 1) as Whole,
            false => 0,
        }
    }

    /// The quotient rounded down: the greatest whole number that, times the lower
    /// number, isn't above this one. The lower number is above 0.
    pub fn over_rounded_down(&self, under: &Wide) -> Whole {
        greatest_where(|quotient| under.times(quotient) <= *self) as Whole
    }
}

/// The greatest number for which a fact holds, which holds from 0 up to it; bit by bit
/// from the highest.
fn greatest_where(holds: impl Fn(u64) -> bool) -> u64 {
    let greatest = (0..63).rev().fold(0, |found, bit| {
        let tried = found | 1 << bit;
        if holds(tried) {
            tried
        } else {
            found
        }
    });
    assert!(greatest < (1 << 63) - 1, "a quotient past 63 bits");
    greatest
}

/// The product of some factors over that of others, rounded up. Factors are from 0 to
/// below 2^64, those of the lower product above 0.
pub fn quotient_up(over: &[Whole], under: &[Whole]) -> Whole {
    Wide::product(over).over_rounded_up(&Wide::product(under))
}

#[cfg(test)]
mod tests {
    use super::*;

    /// 2^62 - 1.
    const BIG: Whole = Whole::MAX >> (Whole::BITS - 63);

    #[test]
    fn a_product_carries_from_part_to_part() {
        let most = Wide([0, 0, 0, u64::MAX]);
        // (2^64 - 1)^2 = 2^128 - 2^65 + 1, and so on.
        let square = Wide([0, 0, u64::MAX - 1, 1]);
        assert_eq!(most.times(u64::MAX), square);
        assert_eq!(square.times(u64::MAX), Wide([0, u64::MAX - 2, 2, u64::MAX]));
        assert!(Wide([0, 0, 1, 0]) > most && Wide([1, 0, 0, 0]) > square);
    }

    #[test]
    fn a_sum_carries_from_part_to_part() {
        let most = Wide([0, 0, 0, u64::MAX]);
        assert_eq!(most.plus(Wide::ONE), Wide([0, 0, 1, 0]));
        let three = Wide([0, u64::MAX, u64::MAX, u64::MAX]);
        assert_eq!(three.plus(most), Wide([1, 0, 0, u64::MAX - 1]));
        assert_eq!(three.plus(Wide::NOUGHT), three);
    }

    #[test]
    #[should_panic(expected = "a sum past 256 bits")]
    fn a_sum_past_256_bits_is_told() {
        let half = Wide([1 << 63, 0, 0, 0]);
        half.plus(half);
    }

    #[test]
    fn quotients_are_rounded_down() {
        let quotient = |over: &[Whole], under: &[Whole]| {
            Wide::product(over).over_rounded_down(&Wide::product(under))
        };
        assert_eq!(quotient(&[7], &[2]), 3);
        assert_eq!(quotient(&[2, 3], &[2]), 3);
        assert_eq!(quotient(&[1], &[1000, 1000]), 0);
        assert_eq!(quotient(&[0, 5], &[9]), 0);
        let three = [BIG, BIG, BIG];
        assert_eq!(quotient(&three, &three), 1);
        assert_eq!(quotient(&[BIG, BIG, BIG - 1], &three), 0);
        assert_eq!(quotient(&three, &[BIG, BIG]), BIG);
        // BIG^2 = (BIG + 1) (BIG - 1) + 1.
        assert_eq!(quotient(&[BIG, BIG, 5], &[BIG - 1, 5]), BIG + 1);
    }

    #[test]
    fn quotients_are_rounded_up() {
        assert_eq!(quotient_up(&[7], &[2]), 4);
        assert_eq!(quotient_up(&[2, 3], &[2]), 3);
        assert_eq!(quotient_up(&[1], &[1000, 1000]), 1);
        assert_eq!(quotient_up(&[0, 5], &[9]), 0);
        assert_eq!(quotient_up(&[], &[]), 1);
    }

    /// Three of them make 186 bits, and 1 more or less in a factor still shows.
    #[test]
    fn products_past_128_bits_are_exact() {
        let three = [BIG, BIG, BIG];
        assert_eq!(quotient_up(&three, &three), 1);
        assert_eq!(quotient_up(&three, &[BIG, BIG, BIG - 1]), 2);
        assert_eq!(quotient_up(&three, &[BIG, BIG]), BIG);
        // BIG^2 = (BIG + 1) (BIG - 1) + 1.
        assert_eq!(quotient_up(&[BIG, BIG, 5], &[BIG - 1, 5]), BIG + 2);
        assert_eq!(quotient_up(&[BIG - 1, BIG, 5], &[BIG, 5]), BIG - 1);
    }

    #[test]
    #[should_panic(expected = "a product past 256 bits")]
    fn a_product_past_256_bits_is_told() {
        quotient_up(&[BIG; 5], &[BIG]);
    }

    #[test]
    #[should_panic(expected = "a quotient past 63 bits")]
    fn nothing_is_divided_by_nought() {
        quotient_up(&[1], &[0, 7]);
    }
}
