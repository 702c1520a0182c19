//! How far a row bends: 400 and 401 either way at each station, at two at
//! once, the ends of a row, the steepest rows and rows of extremes, digits
//! that are missing, and bends that only lie between two rows.

use super::{exchanged, fold, put_slip, EITHER};
use crate::corpus::booklets::coaster;
use crate::corpus::cases::Cases;
use crate::corpus::dice::Dice;
use crate::corpus::edges::tied;
use crate::corpus::mend::GREATEST;
use crate::corpus::vessel::Vessel;
use crate::unit::TENTHS;

pub fn add(cases: &mut Cases) {
    for station in 1..=11 {
        for bend in [400, 401, -400, -401] {
            let name = format!("bend of {bend} at {} degrees", 5 * station);
            add_changed(cases, &name, move |kn| fold(kn, station, bend));
        }
    }
    add_pairs(cases);
    add_lines(cases);
    add_ends(cases);
    add_extremes(cases);
    add_digits(cases);
    add_between(cases);
    add_sets(cases);
}

/// A case with one of a ship's two rows changed.
fn add_changed(cases: &mut Cases, name: &str, change: impl Fn(&mut Vec<i128>) + 'static) {
    cases.add(name, move |dice| {
        let mut vessel = coaster(dice);
        change(&mut vessel.rows[dice.index(2)].kn);
        vessel.text(dice)
    });
}

/// A case with these KN values in the row that the ship floats on.
fn add_row(cases: &mut Cases, name: &str, kn: [i128; 13]) {
    cases.add(name, move |dice| {
        let mut vessel = coaster(dice);
        vessel.rows[0].kn = kn.to_vec();
        vessel.text(dice)
    });
}

/// Two bends in one row: each of them a slip, or one of them, or neither.
fn add_pairs(cases: &mut Cases) {
    for (one, other) in [
        ((2, 401), (10, -401)),
        ((2, -401), (10, 401)),
        ((2, 400), (10, 401)),
        ((2, -401), (10, -400)),
        ((2, 400), (10, -400)),
        ((5, 401), (6, -401)),
        ((5, -401), (6, 401)),
        ((5, -400), (6, 400)),
        ((1, 401), (11, 401)),
    ] {
        let [(at, bend), (also_at, also)] = [one, other].map(|(at, bend)| (5 * at, bend));
        let name = format!("bends of {bend} at {at} and {also} at {also_at} degrees");
        add_changed(cases, &name, move |kn| {
            for (station, bend) in [one, other] {
                fold(kn, station, bend);
            }
        });
    }
}

/// A straight row with every second value higher by so much.
fn zigzag(odd: bool, by: i128) -> [i128; 13] {
    std::array::from_fn(|station| {
        let raised = station > 0 && (station % 2 == 1) == odd;
        350 * station as i128 + if raised { by } else { 0 }
    })
}

/// Rows that are straight, that bend by 400 everywhere, and that bend by a
/// little more at one station.
fn add_lines(cases: &mut Cases) {
    for step in [1, 401, 2_500] {
        let name = format!("a straight row, {step} a station");
        add_row(cases, &name, std::array::from_fn(|at| step * at as i128));
    }
    for odd in [true, false] {
        for by in [200, 201] {
            let name = format!("every second value {by} higher, odd stations {odd}");
            add_row(cases, &name, zigzag(odd, by));
        }
    }
    for station in [1, 6, 11] {
        let mut kn = zigzag(true, 200);
        let up = 2 * kn[station] > kn[station - 1] + kn[station + 1];
        fold(&mut kn, station, if up { 401 } else { -401 });
        let name = format!("every second value 200 higher, but at {}", 5 * station);
        add_row(cases, &name, kn);
    }
    add_row(cases, "the steepest row", GREATEST);
    for (station, by) in [(1, 1), (6, 1), (11, 1), (1, -1), (6, -1), (12, -1)] {
        let mut kn = GREATEST;
        kn[station] += by;
        let name = format!("the steepest row, {by:+} at {}", 5 * station);
        add_row(cases, &name, kn);
    }
    let hollow: [i128; 13] = std::array::from_fn(|at| 200 * (at * at) as i128);
    add_row(cases, "the hollowest row", hollow);
    for (station, by) in [(1, 1), (1, -1), (6, -1), (12, 1), (12, -1)] {
        let mut kn = hollow;
        kn[station] += by;
        let name = format!("the hollowest row, {by:+} at {}", 5 * station);
        add_row(cases, &name, kn);
    }
}

/// A straight row but for its value at 60 degrees or at 5, which only a
/// neighbour's test or its own can see; and rows that begin and end steeply,
/// since nothing is tested at 0 and at 60.
fn add_ends(cases: &mut Cases) {
    for (station, by) in [
        (12, 400),
        (12, 401),
        (12, -400),
        (12, -401),
        (1, 200),
        (1, 201),
        (1, -200),
        (1, -201),
    ] {
        let mut kn: [i128; 13] = std::array::from_fn(|at| 300 * at as i128);
        kn[station] += by;
        let name = format!("a straight row but for {by:+} at {}", 5 * station);
        add_row(cases, &name, kn);
    }
    let arch: [i128; 13] = std::array::from_fn(|at| (180 * at * (12 - at)) as i128);
    add_row(cases, "a row that ends at 0", arch);
    let mut late = [0; 13];
    for (station, kn) in late.iter_mut().enumerate().skip(1) {
        *kn = 200 * (station * (station - 1)) as i128;
    }
    add_row(cases, "a row that begins flat and ends steeply", late);
}

/// 0 and 30,000 side by side.
fn add_extremes(cases: &mut Cases) {
    let mut full = [30_000; 13];
    full[0] = 0;
    add_row(cases, "all values 30,000 but the first", full);
    for station in [1, 2, 6, 11, 12] {
        let (mut one, mut none) = ([0; 13], full);
        one[station] = 30_000;
        none[station] = 0;
        let angle = 5 * station;
        add_row(cases, &format!("30,000 at {angle}, all others 0"), one);
        add_row(cases, &format!("0 at {angle}, all others 30,000"), none);
    }
    for odd in [true, false] {
        let turned = |at: usize| {
            if at > 0 && (at % 2 == 1) == odd {
                30_000
            } else {
                0
            }
        };
        let name = format!("0 and 30,000 in turn, odd stations {odd}");
        add_row(cases, &name, std::array::from_fn(turned));
    }
}

/// What a yard types wrong.
fn add_digits(cases: &mut Cases) {
    for station in 1..=12 {
        let name = format!("a digit missing at {} degrees", 5 * station);
        add_changed(cases, &name, move |kn| kn[station] /= 10);
    }
    for station in [2, 6, 12] {
        let angle = 5 * station;
        let name = format!("two digits exchanged at {angle} degrees");
        add_changed(cases, &name, move |kn| kn[station] = exchanged(kn[station]));
        let name = format!("a value left out at {angle} degrees");
        add_changed(cases, &name, move |kn| {
            kn.remove(station);
            kn.push(kn[11]);
        });
    }
    for station in [1, 6, 11] {
        let name = format!("two values exchanged from {} degrees", 5 * station);
        add_changed(cases, &name, move |kn| kn.swap(station, station + 1));
    }
}

/// Two rows that bend by 400 and the mass in the midst, where the values that
/// are rounded down bend by 401; and a slip in a row that the mass does not
/// lie beside.
fn add_between(cases: &mut Cases) {
    for (bend, change) in [(400, [1, 0, -1]), (-400, [2, 1, 0])] {
        cases.add_twins(
            &EITHER,
            &format!("bend of {bend} in both rows, one more between them"),
            move |dice, set| {
                let mut vessel = coaster(dice);
                fold(&mut vessel.rows[0].kn, 6, bend);
                vessel.rows[1] = vessel.rows[0].clone();
                vessel.rows[1].displacement += 2;
                for (kn, by) in vessel.rows[1].kn[5..].iter_mut().zip(change) {
                    *kn += by;
                }
                vessel.mass += 1;
                vessel.criteria = set;
                vessel.text(dice)
            },
        );
    }
    for (row, mass) in [(5, 1), (1, 5), (3, 1), (3, 5)] {
        let name = format!("slip in row {row} of 5, the mass on row {mass}");
        cases.add(name, move |dice| {
            let mut vessel = lengthened(dice, 5);
            put_slip(dice, &mut vessel, row);
            vessel.mass = vessel.rows[mass - 1].displacement;
            vessel.text(dice)
        });
    }
}

/// A ship with so many rows, each like her first.
pub fn lengthened(dice: &mut Dice, count: usize) -> Vessel {
    let mut vessel = coaster(dice);
    let mut row = vessel.rows[0].clone();
    vessel.rows.clear();
    for _ in 0..count {
        vessel.rows.push(row.clone());
        row.displacement += dice.between(1, 9_000);
    }
    vessel
}

/// By each set: a row that just is smooth, one that just is not, and equal
/// greatest levers at the highest KG that a smooth row has them at.
fn add_sets(cases: &mut Cases) {
    for bend in [400, 401, -400, -401] {
        let name = format!("bend of {bend} at 30 degrees in both rows");
        cases.add_twins(&EITHER, &name, move |dice, set| {
            let mut vessel = coaster(dice);
            for row in &mut vessel.rows {
                fold(&mut row.kn, 6, bend);
            }
            vessel.criteria = set;
            vessel.text(dice)
        });
    }
    for (first, second, kg) in [(3, 5, 40_000), (5, 7, 37_500)] {
        let name = format!("equal levers at stations {first} and {second}, KG {kg}");
        cases.add_twins(&EITHER, &name, move |dice, set| {
            let mut vessel = tied(dice, first, second, TENTHS.of(kg));
            vessel.criteria = set;
            vessel.text(dice)
        });
    }
}
