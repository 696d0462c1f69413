//! Whole-number division with a named direction of rounding. Divisors are
//! always above 0 here.

use crate::Whole;

/// Towards minus infinity.
pub fn down(over: Whole, under: Whole) -> Whole {
    over.div_euclid(under)
}

/// Towards plus infinity.
pub fn up(over: Whole, under: Whole) -> Whole {
    -(-over).div_euclid(under)
}

/// To the nearest whole number, a half going up.
pub fn half_up(over: Whole, under: Whole) -> Whole {
    (2 * over + under).div_euclid(2 * under)
}

#[cfg(test)]
mod tests {
    use super::*;

    #[test]
    fn each_direction_on_both_sides_of_zero() {
        assert_eq!((down(7, 2), down(-7, 2), down(6, 2)), (3, -4, 3));
        assert_eq!((up(7, 2), up(-7, 2), up(6, 2)), (4, -3, 3));
        assert_eq!((half_up(5, 2), half_up(-5, 2)), (3, -2));
        assert_eq!((half_up(249, 100), half_up(250, 100)), (2, 3));
    }
}
