//! The roll to windward with each value exact or rounded. Two values are
//! square roots, the period and the roll itself. Where one of them is kept
//! exact it is held between two fractions that are 10^-15 apart, and both ends
//! are carried on to the verdict.

use super::fraction::Fraction;
use super::hull::Hull;
use super::rounding::{Kept, Rounding};
use crate::book::Document;
use crate::line::{root_down, root_up, Point};
use crate::roll::{K, K_OF_SHARP_BILGE, LONGEST_PERIOD, S, X1, X2};
use crate::unit::TENTHS;

const PARTS: i128 = 10_i128.pow(15);

/// A number that is no less than the first and no greater than the second.
#[derive(Clone, Debug)]
pub struct Held(pub Fraction, pub Fraction);

/// The square root of a fraction, held.
fn root(square: &Fraction) -> Held {
    if let Some(exact) = square.root() {
        return Held(exact.clone(), exact);
    }
    let low = root_down(square.times(PARTS * PARTS).floor());
    let found = Fraction::of(low, PARTS);
    if &found * &found == *square {
        Held(found.clone(), found)
    } else {
        Held(found, Fraction::of(low + 1, PARTS))
    }
}

/// A table at x: linear between points, flat beyond.
fn table(points: &[Point], x: &Fraction) -> Fraction {
    let right = points.partition_point(|point| Fraction::whole(point.0) < *x);
    match (points.get(right.wrapping_sub(1)), points.get(right)) {
        (Some(&left), Some(&right)) => {
            let past = x - &Fraction::whole(left.0);
            let rise = past.times(right.1 - left.1).part(right.0 - left.0);
            &Fraction::whole(left.1) + &rise
        }
        (Some(only), None) | (None, Some(only)) => Fraction::whole(only.1),
        (None, None) => Fraction::whole(0),
    }
}

/// phi1 in tenths of a degree, held, or none where criterion 8 is not judged.
pub fn angle(document: &Document, hull: &Hull, kept: Kept) -> Option<Held> {
    let breadth = document.ship.breadth;
    let (kg, d, gm) = (&hull.kg, &hull.draught, hull.gm());
    let waterline = hull.waterline();
    let outside = gm <= Fraction::whole(0)
        || Fraction::whole(10 * breadth) >= d.times(35)
        || kg.times(10) < waterline.times(7)
        || kg.times(10) > waterline.times(15);
    if outside {
        return None;
    }
    let b = Fraction::whole(1_000 * breadth).over(d);
    let b = kept.down(Rounding::B, b);
    let n = period(document, &b, &gm, kept)?;
    let s = |n: &Fraction| kept.up(Rounding::S, table(&S, n));
    let p = shape(document, &b, kept);
    let height = (kg - &waterline).times(600).over(&waterline);
    let r = &Fraction::whole(730) + &kept.up(Rounding::R, height);
    let before = (&(&p * &p) * &r).times(1_090 * 1_090);
    let square = |s: &Fraction| (&before * s).part(10_i128.pow(13));
    let (least, most) = (square(&s(&n.1)), square(&s(&n.0)));
    if kept.has(Rounding::Phi1) {
        Some(Held(root(&least).0, root(&most).1))
    } else {
        let whole = |square: &Fraction| Fraction::whole(root_up(square.ceiling()));
        Some(Held(whole(&least), whole(&most)))
    }
}

/// n, or none from 2,000 on, which is decided by comparing squares.
pub fn period(document: &Document, b: &Fraction, gm: &Fraction, kept: Kept) -> Option<Held> {
    let ship = &document.ship;
    let long = kept.up(Rounding::C, Fraction::of(43 * ship.length, 100));
    let c = &(&Fraction::whole(373_000) + &b.times(23)) - &long;
    let q = c.times(2 * ship.breadth).part(1_000_000);
    let q = kept.down(Rounding::Q, q);
    let raised = (&q * &q).times(TENTHS.of(10));
    if gm.times(LONGEST_PERIOD * LONGEST_PERIOD) <= raised {
        return None;
    }
    let square = raised.over(gm);
    if kept.has(Rounding::N) {
        Some(root(&square))
    } else {
        let n = Fraction::whole(root_down(square.floor()));
        Some(Held(n.clone(), n))
    }
}

/// p, out of k, X1 and X2.
fn shape(document: &Document, b: &Fraction, kept: Kept) -> Fraction {
    let ship = &document.ship;
    let k = if ship.sharp_bilge {
        Fraction::whole(K_OF_SHARP_BILGE)
    } else {
        let area = 1_000_000_000 * ship.keel_area;
        let index = Fraction::of(area, ship.length * ship.breadth);
        kept.up(Rounding::K, table(&K, &kept.down(Rounding::Index, index)))
    };
    let full = Fraction::whole(document.condition.weather.block_coefficient);
    let x1 = kept.up(Rounding::X1, table(&X1, b));
    let x2 = kept.up(Rounding::X2, table(&X2, &full));
    let p = kept.up(Rounding::P, (&k * &x1).part(1_000));
    kept.up(Rounding::P, (&p * &x2).part(1_000))
}

#[cfg(test)]
mod tests {
    use super::*;

    #[test]
    fn roots_are_held() {
        for value in [0, 1, 2, 9, 10, 4_000_000] {
            let square = Fraction::whole(value);
            let Held(low, high) = root(&square);
            assert!(&low * &low <= square && &high * &high >= square);
            assert!(&high - &low <= Fraction::of(1, PARTS));
        }
        let Held(low, high) = root(&Fraction::of(100, 49));
        assert!(low == high && low == Fraction::of(10, 7));
    }
}
