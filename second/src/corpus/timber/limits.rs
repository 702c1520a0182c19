//! Each limit of the timber set met exactly and missed by one, each flooding
//! angle, and the greatest lever wherever it can lie: all by both sets.

use super::{add_either, shape, shaped, Levers};
use crate::corpus::cases::Cases;
use crate::corpus::edges::{crest, solved, tied, TO_40};
use crate::corpus::solve::{lever, Search};
use crate::corpus::vessel::{self, Vessel};
use crate::corpus::winds::heeled;
use crate::sets::TIMBER;
use crate::unit::TENTHS;

pub fn add(cases: &mut Cases) {
    add_solved(cases);
    for gm in [-1, 0, 1, 999, 1_000, 1_001, 1_499, 1_500] {
        add_either(cases, &format!("timber GM {gm} tenths"), move |dice| {
            let mut vessel = vessel::judged(dice);
            vessel.set_gm(gm);
            vessel
        });
    }
    for (heel, deck_edge) in HEELS {
        let name = format!("timber phi0 {heel} deck edge {deck_edge}");
        add_either(cases, &name, move |dice| {
            let mut vessel = heeled(dice, heel);
            vessel.weather.deck_edge = deck_edge;
            vessel
        });
    }
    for flooding in FLOODINGS {
        let name = format!("timber flooding at {flooding}");
        add_either(cases, &name, move |dice| {
            let mut vessel = vessel::judged(dice);
            vessel.weather.flooding = flooding;
            vessel
        });
    }
    add_crests(cases);
    add_ties(cases);
    add_humps(cases);
}

/// With the deck edge far too low for the Code, at its edge and far above it.
const HEELS: [(i128, i128); 11] = [
    (1, 1),
    (120, 149),
    (159, 1),
    (160, 1),
    (161, 1),
    (160, 199),
    (160, 200),
    (160, 600),
    (161, 202),
    (161, 600),
    (500, 600),
];

const FLOODINGS: [i128; 14] = [
    0, 1, 50, 100, 249, 250, 299, 300, 301, 399, 400, 401, 500, 600,
];

/// A curve that rises to its greatest lever at the flooding angle, which is
/// beyond 30 degrees.
const LATE: Search = Search {
    flooding: (300, 399),
    weights: lever,
    figure: 6,
    prepare: |vessel| {
        let levers = [0, 25, 50, 80, 110, 140, 170, 200, 320, 330, 300, 250, 200];
        rising(vessel, &levers);
    },
};

/// The same with the flooding angle before 30 degrees.
const EARLY: Search = Search {
    flooding: (150, 299),
    prepare: |vessel| {
        let levers = [0, 50, 100, 150, 200, 240, 290, 300, 280, 260, 230, 190, 140];
        rising(vessel, &levers);
    },
    ..LATE
};

/// An odd lever needs a station with an odd sine beside the flooding angle,
/// and before 30 degrees the one at 10 is the last of these.
const EARLIER: Search = Search {
    flooding: (51, 149),
    ..EARLY
};

fn rising(vessel: &mut Vessel, levers: &Levers) {
    vessel.criteria = &TIMBER;
    shape(vessel, levers);
}

/// The area of slot 3 and the greatest lever of slot 4, beyond 30 degrees and
/// before, at their limits and one beside.
fn add_solved(cases: &mut Cases) {
    for (name, exact, beside, limit) in [
        ("criterion 3", &TO_40, &TO_40, TIMBER.area_to_40),
        ("criterion 4 late", &LATE, &LATE, TIMBER.greatest_lever),
        ("criterion 4 early", &EARLY, &EARLIER, TIMBER.greatest_lever),
    ] {
        let limit = TENTHS.of(limit.unwrap_or_default());
        for (search, off) in [(beside, -1), (exact, 0), (beside, 1)] {
            let name = format!("timber {name} limit {off:+}");
            add_either(cases, &name, move |dice| solved(dice, search, limit + off));
        }
    }
}

/// The greatest lever at 10, 20, 25, 30 and 60 degrees, with the flooding
/// angle behind it or before.
fn add_crests(cases: &mut Cases) {
    for (station, flooding) in [
        (2, 600),
        (4, 600),
        (5, 600),
        (6, 600),
        (12, 600),
        (2, 299),
        (5, 299),
        (5, 249),
        (6, 299),
    ] {
        let name = format!("timber crest at station {station}, flooding {flooding}");
        add_either(cases, &name, move |dice| {
            let mut vessel = vessel::judged(dice);
            vessel.weather.flooding = flooding;
            crest(&mut vessel, &[station]);
            vessel
        });
    }
}

/// Equal greatest levers, and none above 0.
fn add_ties(cases: &mut Cases) {
    for (first, second, kg) in [
        (3, 5, 5_000),
        (2, 6, 20_000),
        (5, 7, 12_500),
        (2, 4, 0),
        (5, 6, 0),
    ] {
        let name = format!("timber equal levers at stations {first} and {second}, KG {kg}");
        add_either(cases, &name, move |dice| {
            tied(dice, first, second, TENTHS.of(kg))
        });
    }
    add_either(cases, "timber levers below 0", |dice| {
        let fall = std::array::from_fn(|station| -4 * station as i128);
        shaped(dice, &fall, 600)
    });
    add_either(cases, "timber levers 0", |dice| {
        let mut vessel = vessel::judged(dice);
        vessel.kg = 0;
        vessel.laden().kn = vec![0; 13];
        vessel
    });
}

/// The station of a hump and its lever.
type Hump = (usize, i128);

/// A lever of 250 is above the limit of slot 4 by less than a millimetre, one
/// of 249 below it by less, and so with 200 and 199 and the Code's.
const HUMPS: [(Hump, Hump); 13] = [
    ((5, 250), (8, 190)),
    ((5, 249), (8, 190)),
    ((2, 250), (9, 190)),
    ((2, 249), (9, 190)),
    ((5, 300), (8, 220)),
    ((2, 300), (8, 199)),
    ((2, 300), (8, 200)),
    ((5, 199), (8, 200)),
    ((5, 220), (8, 249)),
    ((5, 220), (8, 250)),
    ((4, 249), (12, 250)),
    ((5, 250), (6, 199)),
    ((5, 260), (7, 260)),
];

/// A rise to the first hump, a dip, a second hump and a fall.
fn humps((first, high): Hump, (second, again): Hump) -> Levers {
    std::array::from_fn(|station| {
        let at = station as i128;
        if station <= first {
            high * at / first as i128
        } else if station < second {
            high.min(again) / 2
        } else {
            again * (14 - at) / (14 - second as i128)
        }
    })
}

/// Two humps, and one hump above the other with the flooding angle before,
/// at and behind each.
fn add_humps(cases: &mut Cases) {
    let behind = HUMPS.map(|pair| (pair, 600));
    let floodings = [0, 249, 250, 299, 300, 420, 449, 450];
    let before = floodings.map(|flooding| (((5, 240), (9, 300)), flooding));
    for ((first, second), flooding) in behind.into_iter().chain(before) {
        let name = format!(
            "timber humps {} at {} and {} at {}, flooding {flooding}",
            first.1,
            5 * first.0,
            second.1,
            5 * second.0
        );
        add_either(cases, &name, move |dice| {
            shaped(dice, &humps(first, second), flooding)
        });
    }
}
