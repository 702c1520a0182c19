//! Criterion 8 by its hull: each reason for not judging it alone and at its
//! edge, and each point of each table of the roll, beside it and between.

use super::cases::Cases;
use super::dice::Dice;
use super::vessel::{self, Vessel};
use crate::book::Row;
use crate::line::Point;
use crate::roll::{keel_index, period, K, S, X1, X2};
use crate::unit::TENTHS;

pub fn add(cases: &mut Cases) {
    add_proportions(cases);
    add_heights(cases);
    for n in around(&S).into_iter().chain([300]) {
        cases.add(format!("period {n}"), move |dice| {
            with_period(dice, n).text(dice)
        });
    }
    for fullness in around(&X1).into_iter().chain([600, 1_500, 3_300]) {
        cases.add(format!("B over d {fullness}"), move |dice| {
            let draught = 1_000 * dice.between(3, 4);
            vessel::judged_at(dice, draught, fullness).text(dice)
        });
    }
    for coefficient in around(&X2).into_iter().chain([200, 575, 1_000]) {
        cases.add(format!("CB {coefficient}"), move |dice| {
            let mut vessel = vessel::judged(dice);
            vessel.weather.block_coefficient = coefficient;
            vessel.text(dice)
        });
    }
    for index in around(&K).into_iter().chain([500, 8_000]) {
        for sharp in [false, true] {
            if !sharp || index % 1_000 == 0 {
                cases.add(format!("keel index {index} sharp {sharp}"), move |dice| {
                    with_keel(dice, index, sharp).text(dice)
                });
            }
        }
    }
    for gm in [30, 37, 38] {
        let name = format!("narrowest and longest, GM {gm} tenths");
        cases.add(name, move |dice| slowest(dice, gm).text(dice));
    }
}

/// The points of a table, one to each side, and the middles between.
fn around(points: &[Point]) -> Vec<i128> {
    let mut places: Vec<i128> = points
        .iter()
        .flat_map(|point| [point.0 - 1, point.0, point.0 + 1])
        .collect();
    places.extend(points.windows(2).map(|pair| (pair[0].0 + pair[1].0) / 2));
    places.retain(|&place| place >= 0);
    places
}

/// 10 B = 35 d and one millimetre beside it, at even and odd draughts.
fn add_proportions(cases: &mut Cases) {
    for (draught, breadth) in [
        (4_000, 13_999),
        (4_000, 14_000),
        (4_000, 14_001),
        (4_001, 14_003),
        (4_001, 14_004),
    ] {
        cases.add(format!("B {breadth} at d {draught}"), move |dice| {
            let mut vessel = vessel::judged_at(dice, draught, 3_400);
            vessel.ship.breadth = breadth;
            vessel.text(dice)
        });
    }
}

/// KG at 7d and 15d in tenths, one beside and a millimetre beyond, where it
/// comes out whole there and where it does not; and around the waterline.
fn add_heights(cases: &mut Cases) {
    for draught in [4_000, 4_001, 4_003] {
        for (times, besides) in [(7, [-10, -1, 0, 1]), (15, [-1, 0, 1, 10])] {
            for beside in besides {
                let name = format!("KG {times}d {beside:+} tenths at d {draught}");
                cases.add(name, move |dice| {
                    let mut vessel = vessel::judged_at(dice, draught, 2_600);
                    vessel.raise_to(times * draught + beside);
                    vessel.text(dice)
                });
            }
        }
    }
    for beside in [-10, -1, 0, 1, 10] {
        let name = format!("KG {beside:+} tenths from the waterline");
        cases.add(name, move |dice| {
            let mut vessel = vessel::judged(dice);
            let waterline = vessel.laden().draught;
            vessel.raise_to(TENTHS.of(waterline) + beside);
            vessel.text(dice)
        });
    }
}

/// A vessel with this rolling period, by its GM and length.
pub fn with_period(dice: &mut Dice, n: i128) -> Vessel {
    let mut vessel = vessel::judged(dice);
    let draught = vessel.laden().draught;
    let base = vessel.ship.length;
    for longer in 0..3_000 {
        vessel.ship.length = base + 29 * longer;
        let (mut low, mut high) = (1, TENTHS.of(60_000 - vessel.kg));
        while low < high {
            let middle = (low + high) / 2;
            if period(&vessel.ship, draught, middle, TENTHS) > n {
                low = middle + 1;
            } else {
                high = middle;
            }
        }
        if period(&vessel.ship, draught, low, TENTHS) == n {
            vessel.set_gm(low);
            return vessel;
        }
    }
    vessel
}

/// A vessel with this keel index: long enough for the index to take every
/// value as the keel's area grows.
fn with_keel(dice: &mut Dice, index: i128, sharp: bool) -> Vessel {
    let mut vessel = vessel::judged(dice);
    vessel.ship.sharp_bilge = sharp;
    vessel.ship.length = 1_000_000_000 / vessel.ship.breadth + dice.between(1, 9_000);
    let area = (0..=20_000).find(|&area| {
        vessel.ship.keel_area = area;
        keel_index(&vessel.ship) >= index
    });
    vessel.ship.keel_area = area.unwrap_or(20_000);
    vessel
}

/// The hull with the least GM that a period below 20 s allows.
fn slowest(dice: &mut Dice, gm: i128) -> Vessel {
    let mut vessel = vessel::judged(dice);
    vessel.ship.length = 400_000;
    vessel.ship.breadth = 3_000;
    vessel.kg = dice.between(21_000, 29_000);
    let (kg, kn) = (vessel.kg, vessel.laden().kn.clone());
    vessel.set_gm(gm);
    let km = vessel.laden().km;
    let steady = kn.iter().zip(crate::curve::SINES);
    let kn: Vec<i128> = steady
        .map(|(form, sine)| form / 10 + kg * sine / 100_000)
        .collect();
    for row in &mut vessel.rows {
        *row = Row {
            displacement: row.displacement,
            draught: 30_000,
            km,
            kn: kn.clone(),
        };
    }
    vessel
}
