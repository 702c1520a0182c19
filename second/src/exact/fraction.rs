//! Exact fractions. They are not brought to lowest terms: a judgement is
//! short enough for its numbers to stay small, and comparing does not need it.

use std::cmp::Ordering;
use std::ops::{Add, Mul, Neg, Sub};

use super::big::Big;
use crate::line::root_down;

#[derive(Clone, Debug)]
pub struct Fraction {
    above: Big,
    /// Above 0.
    below: Big,
}

impl Fraction {
    /// The lower number is above 0.
    pub fn of(above: i128, below: i128) -> Fraction {
        Fraction {
            above: Big::from(above),
            below: Big::from(below),
        }
    }

    pub fn whole(value: i128) -> Fraction {
        Fraction::of(value, 1)
    }

    pub fn times(&self, by: i128) -> Fraction {
        Fraction {
            above: &self.above * &Big::from(by),
            below: self.below.clone(),
        }
    }

    /// Divided by a whole number above 0.
    pub fn part(&self, by: i128) -> Fraction {
        Fraction {
            above: self.above.clone(),
            below: &self.below * &Big::from(by),
        }
    }

    /// Divided by a fraction above 0.
    pub fn over(&self, other: &Fraction) -> Fraction {
        Fraction {
            above: &self.above * &other.below,
            below: &self.below * &other.above,
        }
    }

    /// The square root, where it is a fraction and 127 bits hold the product
    /// of the two numbers.
    pub fn root(&self) -> Option<Fraction> {
        let (above, below) = (self.above.small()?, self.below.small()?);
        let product = above.checked_mul(below)?;
        let most = 1 << 125;
        let root = root_down(Some(product).filter(|&product| product < most)?);
        (root * root == product).then(|| Fraction::of(root, below))
    }

    pub fn size(&self) -> Fraction {
        if self.is_negative() {
            -self
        } else {
            self.clone()
        }
    }

    pub fn is_negative(&self) -> bool {
        self.above.is_negative()
    }

    pub fn is_whole(&self) -> bool {
        self.down() == *self
    }

    /// The fraction rounded down; it stays a fraction, over 1.
    pub fn down(&self) -> Fraction {
        Fraction {
            above: self.above.div_down(&self.below),
            below: Big::from(1),
        }
    }

    pub fn up(&self) -> Fraction {
        -&(-self).down()
    }

    /// The whole number below, where 127 bits hold it.
    pub fn floor(&self) -> i128 {
        let floor = self.above.div_down(&self.below).small();
        floor.expect("figures and roots of this program are below 2^127")
    }

    pub fn ceiling(&self) -> i128 {
        -(-self).floor()
    }

    pub fn is_at_least(&self, value: i128) -> bool {
        self.above >= &self.below * &Big::from(value)
    }
}

impl Add for &Fraction {
    type Output = Fraction;

    fn add(self, other: &Fraction) -> Fraction {
        if self.below == other.below {
            return Fraction {
                above: &self.above + &other.above,
                below: self.below.clone(),
            };
        }
        Fraction {
            above: &(&self.above * &other.below) + &(&other.above * &self.below),
            below: &self.below * &other.below,
        }
    }
}

impl Sub for &Fraction {
    type Output = Fraction;

    fn sub(self, other: &Fraction) -> Fraction {
        self + &-other
    }
}

impl Mul for &Fraction {
    type Output = Fraction;

    fn mul(self, other: &Fraction) -> Fraction {
        Fraction {
            above: &self.above * &other.above,
            below: &self.below * &other.below,
        }
    }
}

impl Neg for &Fraction {
    type Output = Fraction;

    fn neg(self) -> Fraction {
        Fraction {
            above: -&self.above,
            below: self.below.clone(),
        }
    }
}

impl Ord for Fraction {
    fn cmp(&self, other: &Fraction) -> Ordering {
        if self.below == other.below {
            return self.above.cmp(&other.above);
        }
        (&self.above * &other.below).cmp(&(&other.above * &self.below))
    }
}

impl PartialOrd for Fraction {
    fn partial_cmp(&self, other: &Fraction) -> Option<Ordering> {
        Some(self.cmp(other))
    }
}

impl PartialEq for Fraction {
    fn eq(&self, other: &Fraction) -> bool {
        self.cmp(other) == Ordering::Equal
    }
}

impl Eq for Fraction {}

#[cfg(test)]
mod tests {
    use super::*;

    #[test]
    fn thirds_and_halves() {
        let (third, half) = (Fraction::of(1, 3), Fraction::of(-1, 2));
        assert_eq!(&third + &half, Fraction::of(-1, 6));
        assert_eq!(&third - &half, Fraction::of(5, 6));
        assert_eq!(half.over(&third), Fraction::of(-3, 2));
        assert_eq!((half.floor(), half.ceiling()), (-1, 0));
        assert_eq!((third.floor(), third.ceiling()), (0, 1));
        assert_eq!(Fraction::of(2, 98).root(), Some(Fraction::of(1, 7)));
        assert!(third.root().is_none() && Fraction::whole(0).root().is_some());
        assert!(third > half && third.times(3).is_whole() && !half.is_whole());
        assert!(third.times(6).is_at_least(2) && !third.times(5).is_at_least(2));
    }
}
