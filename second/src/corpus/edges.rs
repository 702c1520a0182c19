//! Criteria 1 to 6 exactly at their limits and one beside them.

use super::cases::Cases;
use super::dice::Dice;
use super::mend::{mend, Bounds, OPEN};
use super::solve::{area, lever, Search, PER_KN};
use super::vessel::{self, Vessel};
use crate::curve::SINES;
use crate::sets::CODE;
use crate::unit::TENTHS;

const TO_30: Search = Search {
    flooding: (230, 330),
    weights: |flooding| area(0, flooding.min(300)),
    figure: 3,
    prepare: |_| (),
};

/// An odd area needs a flooding angle beside a station with an odd sine, and
/// before 30 degrees the one at 10 is the last of these.
const TO_15: Search = Search {
    flooding: (101, 149),
    ..TO_30
};

const FROM_30: Search = Search {
    flooding: (330, 430),
    weights: |flooding| area(300, flooding.min(400)),
    figure: 4,
    prepare: |_| (),
};

pub const TO_40: Search = Search {
    flooding: (310, 430),
    weights: |flooding| area(0, flooding.min(400)),
    figure: 5,
    prepare: |_| (),
};

const GREATEST: Search = Search {
    flooding: (300, 399),
    weights: lever,
    figure: 6,
    prepare: lowered,
};

/// Levers that rise past 0.20 m between 35 and 40 degrees.
fn lowered(vessel: &mut Vessel) {
    let levers = [0, 20, 40, 60, 80, 100, 120, 150, 260, 300, 290, 240, 170];
    let kg = vessel.kg;
    let stations = vessel.laden().kn.iter_mut().zip(SINES);
    for ((kn, sine), lever) in stations.zip(levers) {
        *kn = kg * sine / 100_000 + lever;
    }
}

pub fn add(cases: &mut Cases) {
    for (number, exact, beside, limit) in [
        (1, &TO_30, &TO_15, CODE.area_to_30),
        (2, &FROM_30, &FROM_30, CODE.area_30_to_40),
        (3, &TO_40, &TO_40, CODE.area_to_40),
        (4, &GREATEST, &GREATEST, CODE.greatest_lever),
    ] {
        let limit = TENTHS.of(limit.unwrap_or_default());
        for (search, off) in [(beside, -1), (exact, 0), (beside, 1)] {
            cases.add(format!("criterion {number} limit {off:+}"), move |dice| {
                let vessel = solved(dice, search, limit + off);
                vessel.text(dice)
            });
        }
    }
    for gm in [-1, 0, 1, 1_499, 1_500, 1_501] {
        cases.add(format!("GM {gm} tenths"), move |dice| {
            let mut vessel = vessel::judged(dice);
            vessel.set_gm(gm);
            vessel.text(dice)
        });
    }
    add_angles(cases);
    add_ties(cases);
}

/// The first of the seed's vessels that can be solved for.
pub fn solved(dice: &mut Dice, search: &Search, wanted: i128) -> Vessel {
    let mut vessel = vessel::judged(dice);
    for _ in 0..20 {
        if let Some(found) = search.vessel(dice, &vessel, wanted) {
            return found;
        }
        vessel = vessel::judged(dice);
    }
    vessel
}

/// Makes the lever at a station the greatest of all, with those at further
/// stations equal to it or less than a millimetre under it: as high as the
/// greatest was, or as high as a smooth row can have them.
pub fn crest(vessel: &mut Vessel, stations: &[usize]) {
    let kg = vessel.kg_in_tenths();
    let row = vessel.laden();
    let levers = (0..13).map(|at| PER_KN * row.kn[at] - kg * SINES[at]);
    let mut top = levers.max().unwrap_or(0) + 2 * PER_KN;
    while top > 2 * PER_KN && !mend(row, &crested(kg, stations, top)) {
        top = top * 9 / 10;
    }
}

/// Bounds in which the levers at some stations are so high, and all others a
/// millimetre lower or more.
fn crested(kg: i128, stations: &[usize], top: i128) -> Bounds {
    let first = (top + kg * SINES[stations[0]]) / PER_KN;
    let level = PER_KN * first - kg * SINES[stations[0]];
    let mut bounds = OPEN;
    for station in 1..13 {
        let as_high = (level + kg * SINES[station]).div_euclid(PER_KN);
        bounds[station] = if stations.contains(&station) {
            (as_high, as_high)
        } else {
            (0, (as_high - 2).clamp(0, 30_000))
        };
    }
    bounds
}

/// Angles of the greatest lever at 250 and on both sides of it, by a crest
/// at a station and by a flooding angle on a rising curve.
fn add_angles(cases: &mut Cases) {
    for station in [4, 5, 6, 12] {
        cases.add(format!("crest at station {station}"), move |dice| {
            let mut vessel = vessel::judged(dice);
            vessel.weather.flooding = 600;
            crest(&mut vessel, &[station]);
            vessel.text(dice)
        });
    }
    for (flooding, station) in [(249, 5), (250, 5), (251, 6), (250, 6)] {
        let name = format!("flooding at {flooding} before a crest at station {station}");
        cases.add(name, move |dice| {
            let mut vessel = vessel::judged(dice);
            vessel.weather.flooding = flooding;
            crest(&mut vessel, &[station]);
            vessel.text(dice)
        });
    }
}

/// Equal greatest levers at two stations: the KG, in tenths, is one at which
/// the sines' difference is a whole number of millimetres.
pub fn tied(dice: &mut Dice, first: usize, second: usize, kg: i128) -> Vessel {
    let mut vessel = vessel::judged(dice);
    vessel.raise_to(kg);
    vessel.weather.flooding = 600;
    crest(&mut vessel, &[first, second]);
    vessel
}

/// Two stations each with equal greatest levers, and the KG in millimetres.
pub const TIES: [(usize, usize, i128); 7] = [
    (3, 5, 5_000),
    (3, 5, 10_000),
    (2, 6, 20_000),
    (5, 7, 12_500),
    (6, 7, 0),
    (5, 6, 0),
    (4, 5, 0),
];

fn add_ties(cases: &mut Cases) {
    for (first, second, kg) in TIES {
        cases.add(
            format!("equal levers at stations {first} and {second}, KG {kg}"),
            move |dice| tied(dice, first, second, TENTHS.of(kg)).text(dice),
        );
    }
    cases.add("all levers 0", |dice| {
        let mut vessel = vessel::judged(dice);
        vessel.kg = 0;
        vessel.laden().kn = vec![0; 13];
        vessel.text(dice)
    });
}
