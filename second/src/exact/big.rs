//! Whole numbers of any size, with the few operations that fractions need.

use std::cmp::Ordering;
use std::ops::{Add, Mul, Neg, Sub};

/// Limbs of 64 bits, the lowest first, none of them a leading zero; zero has
/// no limbs and is not negative.
#[derive(Clone, Debug, PartialEq, Eq)]
pub struct Big {
    negative: bool,
    limbs: Vec<u64>,
}

impl Big {
    fn new(negative: bool, mut limbs: Vec<u64>) -> Big {
        trim(&mut limbs);
        Big {
            negative: negative && !limbs.is_empty(),
            limbs,
        }
    }

    pub fn is_zero(&self) -> bool {
        self.limbs.is_empty()
    }

    pub fn is_negative(&self) -> bool {
        self.negative
    }

    /// The greatest whole number not above the quotient; the divisor is above 0.
    pub fn div_down(&self, divisor: &Big) -> Big {
        let (quotient, rest) = divided(&self.limbs, &divisor.limbs);
        let beyond = self.negative && !rest.is_empty();
        let quotient = Big::new(self.negative, quotient);
        if beyond {
            &quotient - &Big::from(1)
        } else {
            quotient
        }
    }

    /// The number itself, if 127 bits hold it.
    pub fn small(&self) -> Option<i128> {
        let size = i128::try_from(halves(&self.limbs)?).ok()?;
        Some(if self.negative { -size } else { size })
    }
}

impl From<i128> for Big {
    fn from(value: i128) -> Big {
        let size = value.unsigned_abs();
        Big::new(value < 0, vec![size as u64, (size >> 64) as u64])
    }
}

impl Add for &Big {
    type Output = Big;

    fn add(self, other: &Big) -> Big {
        if self.negative == other.negative {
            return Big::new(self.negative, sum(&self.limbs, &other.limbs));
        }
        match compare(&self.limbs, &other.limbs) {
            Ordering::Less => Big::new(other.negative, rest(&other.limbs, &self.limbs)),
            _ => Big::new(self.negative, rest(&self.limbs, &other.limbs)),
        }
    }
}

impl Sub for &Big {
    type Output = Big;

    fn sub(self, other: &Big) -> Big {
        self + &-other
    }
}

impl Mul for &Big {
    type Output = Big;

    fn mul(self, other: &Big) -> Big {
        Big::new(
            self.negative != other.negative,
            product(&self.limbs, &other.limbs),
        )
    }
}

impl Neg for &Big {
    type Output = Big;

    fn neg(self) -> Big {
        Big::new(!self.negative, self.limbs.clone())
    }
}

impl Ord for Big {
    fn cmp(&self, other: &Big) -> Ordering {
        match (self.negative, other.negative) {
            (false, true) => Ordering::Greater,
            (true, false) => Ordering::Less,
            (false, false) => compare(&self.limbs, &other.limbs),
            (true, true) => compare(&other.limbs, &self.limbs),
        }
    }
}

impl PartialOrd for Big {
    fn partial_cmp(&self, other: &Big) -> Option<Ordering> {
        Some(self.cmp(other))
    }
}

fn trim(limbs: &mut Vec<u64>) {
    while limbs.last() == Some(&0) {
        limbs.pop();
    }
}

fn halves(limbs: &[u64]) -> Option<u128> {
    match limbs {
        [] => Some(0),
        [low] => Some(u128::from(*low)),
        [low, high] => Some(u128::from(*low) | u128::from(*high) << 64),
        _ => None,
    }
}

fn compare(one: &[u64], other: &[u64]) -> Ordering {
    let by_length = one.len().cmp(&other.len());
    by_length.then_with(|| one.iter().rev().cmp(other.iter().rev()))
}

fn sum(one: &[u64], other: &[u64]) -> Vec<u64> {
    let (long, short) = if one.len() < other.len() {
        (other, one)
    } else {
        (one, other)
    };
    let mut limbs = Vec::with_capacity(long.len() + 1);
    let mut carry = 0;
    for (place, &limb) in long.iter().enumerate() {
        let more = short.get(place).copied().unwrap_or(0);
        let total = u128::from(limb) + u128::from(more) + carry;
        limbs.push(total as u64);
        carry = total >> 64;
    }
    limbs.push(carry as u64);
    limbs
}

/// The first less the second, which is no greater.
fn rest(great: &[u64], small: &[u64]) -> Vec<u64> {
    let mut limbs = great.to_vec();
    take(&mut limbs, small);
    limbs
}

fn take(limbs: &mut [u64], small: &[u64]) {
    let mut borrow = false;
    for (place, limb) in limbs.iter_mut().enumerate() {
        let less = small.get(place).copied().unwrap_or(0);
        let (part, below) = limb.overflowing_sub(less);
        let (part, further) = part.overflowing_sub(u64::from(borrow));
        *limb = part;
        borrow = below || further;
    }
}

fn product(one: &[u64], other: &[u64]) -> Vec<u64> {
    let mut limbs = vec![0; one.len() + other.len()];
    for (place, &limb) in one.iter().enumerate() {
        let mut carry = 0;
        for (beyond, &by) in other.iter().enumerate() {
            let here = &mut limbs[place + beyond];
            let total = u128::from(limb) * u128::from(by) + u128::from(*here) + carry;
            *here = total as u64;
            carry = total >> 64;
        }
        limbs[place + other.len()] = carry as u64;
    }
    limbs
}

fn bits(limbs: &[u64]) -> usize {
    limbs
        .last()
        .map_or(0, |top| 64 * limbs.len() - top.leading_zeros() as usize)
}

/// Quotient and rest, by subtracting the divisor at each binary place.
fn divided(limbs: &[u64], divisor: &[u64]) -> (Vec<u64>, Vec<u64>) {
    if let (Some(whole), Some(by)) = (halves(limbs), halves(divisor)) {
        let two = |value: u128| Big::new(false, vec![value as u64, (value >> 64) as u64]).limbs;
        return (two(whole / by), two(whole % by));
    }
    let mut left = limbs.to_vec();
    let places = (bits(limbs) + 1).saturating_sub(bits(divisor));
    let mut quotient = vec![0; places / 64 + 1];
    for place in (0..places).rev() {
        let mut part = product(divisor, &power(place));
        trim(&mut part);
        if compare(&left, &part) != Ordering::Less {
            take(&mut left, &part);
            trim(&mut left);
            quotient[place / 64] |= 1 << (place % 64);
        }
    }
    (quotient, left)
}

/// Two to a power.
fn power(place: usize) -> Vec<u64> {
    let mut limbs = vec![0; place / 64];
    limbs.push(1 << (place % 64));
    limbs
}

#[cfg(test)]
mod tests {
    use super::*;

    fn numbers() -> Vec<Big> {
        let small = [
            -7,
            -1,
            0,
            1,
            3,
            1 << 63,
            1 << 64,
            i128::MAX,
            10_i128.pow(30),
        ];
        let mut numbers: Vec<Big> = small.into_iter().map(Big::from).collect();
        let squares: Vec<Big> = numbers.iter().map(|one| one * one).collect();
        numbers.extend(squares.iter().map(|square| square - &Big::from(1)));
        numbers.extend(
            squares
                .iter()
                .map(|square| &(square * square) * &Big::from(-5)),
        );
        numbers
    }

    #[test]
    fn sums_products_and_order() {
        for a in &numbers() {
            for b in &numbers() {
                assert_eq!(&(&(a + b) - b), a);
                let square = &(a + b) * &(a + b);
                let parts = &(&(a * a) + &(b * b)) + &(&Big::from(2) * &(a * b));
                assert_eq!(square, parts);
                assert_eq!(a.cmp(b), Big::from(0).cmp(&(b - a)));
            }
        }
    }

    #[test]
    fn quotients_are_rounded_down() {
        for a in &numbers() {
            for b in numbers().iter().filter(|b| **b > Big::from(0)) {
                let rest = a - &(b * &a.div_down(b));
                assert!(!rest.is_negative() && rest < *b);
            }
        }
        assert_eq!(Big::from(-7).div_down(&Big::from(2)).small(), Some(-4));
    }
}
