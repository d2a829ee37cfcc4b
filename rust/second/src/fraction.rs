//! Exact fractions.

use std::cmp::Ordering;

/// A number of at least 0 as one integer over another.
#[derive(Clone, Copy, Debug)]
pub struct Fraction {
    above: i128,
    below: i128,
}

impl Fraction {
    pub fn new(above: i64, below: i64) -> Fraction {
        assert!(above >= 0 && below > 0, "{above}/{below}");
        Fraction {
            above: i128::from(above),
            below: i128::from(below),
        }
    }

    /// v times the fraction, rounded down.
    pub fn of(self, v: i64) -> i64 {
        let product = i128::from(v) * self.above;
        i64::try_from(product.div_euclid(self.below)).expect("a part of a cell")
    }
}

impl Ord for Fraction {
    fn cmp(&self, other: &Fraction) -> Ordering {
        (self.above * other.below).cmp(&(other.above * self.below))
    }
}

impl PartialOrd for Fraction {
    fn partial_cmp(&self, other: &Fraction) -> Option<Ordering> {
        Some(self.cmp(other))
    }
}

impl PartialEq for Fraction {
    fn eq(&self, other: &Fraction) -> bool {
        self.cmp(other) == Ordering::Equal
    }
}

impl Eq for Fraction {}

#[cfg(test)]
mod tests {
    use super::Fraction;

    #[test]
    fn equal_fractions_need_not_look_alike() {
        assert_eq!(Fraction::new(3, 4), Fraction::new(6, 8));
        assert_eq!(Fraction::new(0, 4), Fraction::new(0, 9));
    }

    #[test]
    fn neighbours_are_told_apart() {
        let near = Fraction::new(1_023, 4_194_239);
        assert!(near < Fraction::new(1_024, 4_194_240));
        assert!(near > Fraction::new(1_023, 4_194_240));
    }

    #[test]
    fn a_part_is_rounded_down() {
        assert_eq!(Fraction::new(2, 3).of(4), 2);
        assert_eq!(Fraction::new(2, 3).of(6), 4);
        assert_eq!(Fraction::new(0, 3).of(6), 0);
    }
}
