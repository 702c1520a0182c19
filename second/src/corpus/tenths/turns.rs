//! The ferry: ships that fail one criterion in millimetres by the rounding of
//! KG alone, and pass it in tenths; and one way back, of criterion 8 alone.
//! There is none for GM: KM and its limit are whole millimetres, and a KG that
//! is above a whole number is so however it is rounded up.

use super::ferry;
use crate::corpus::cases::Cases;
use crate::corpus::dice::Dice;
use crate::corpus::timber::{shape, Levers};
use crate::corpus::vessel::Vessel;
use crate::corpus::winds::blow;
use crate::criteria::{judge_in, FAIL, PASS};
use crate::instrument::read_text;
use crate::sets::{CriteriaSet, CODE, TIMBER};
use crate::unit::{MILLIMETRES, TENTHS};

/// How a ferry comes to the edge of a criterion: by her levers, the station of
/// the one that is changed, the angle that she floods at, wind and GM.
struct Edge {
    levers: Levers,
    station: usize,
    flooding: i128,
    wind: i128,
    gm: i128,
}

/// Levers that all criteria are passed with, in a light wind.
const SOUND: Edge = Edge {
    levers: [0, 60, 130, 210, 300, 380, 440, 480, 500, 490, 460, 410, 350],
    station: 6,
    flooding: 600,
    wind: 15,
    gm: 900,
};

const SLOW: Edge = Edge {
    levers: [0, 20, 45, 75, 115, 170, 240, 330, 420, 480, 500, 490, 460],
    station: 4,
    ..SOUND
};

const FLOODED: Edge = Edge {
    flooding: 338,
    ..SOUND
};

const FLAT: Edge = Edge {
    levers: [0, 34, 74, 114, 150, 174, 184, 186, 192, 255, 290, 270, 220],
    ..SOUND
};

/// At 30 degrees, where the sine is a half, a whole KN leaves no lever between.
const LOW: Edge = Edge {
    levers: [0, 60, 130, 200, 250, 290, 185, 190, 195, 180, 150, 110, 60],
    station: 8,
    ..SOUND
};

const EARLY: Edge = Edge {
    levers: [0, 90, 190, 280, 340, 335, 320, 300, 280, 250, 210, 160, 100],
    station: 5,
    ..SOUND
};

/// With a steady heel of about 16 degrees.
const HEELED: Edge = Edge {
    station: 4,
    wind: 227,
    ..SOUND
};

/// With a net area of about 0.
const GUSTY: Edge = Edge {
    station: 9,
    wind: 135,
    ..SOUND
};

/// With so small a GM that a tenth more of it lengthens the roll.
const TENDER: Edge = Edge { gm: 150, ..GUSTY };

const FLATTER: Edge = Edge {
    levers: [0, 30, 66, 101, 133, 155, 164, 166, 171, 235, 290, 270, 220],
    ..SOUND
};

const LOWER: Edge = Edge {
    levers: [0, 45, 95, 140, 170, 190, 205, 220, 235, 240, 230, 210, 180],
    station: 9,
    ..SOUND
};

static FERRIES: [(usize, &CriteriaSet, Edge); 11] = [
    (1, &CODE, SLOW),
    (2, &CODE, FLOODED),
    (3, &CODE, FLAT),
    (4, &CODE, LOW),
    (5, &CODE, EARLY),
    (7, &CODE, HEELED),
    (8, &CODE, GUSTY),
    (3, &TIMBER, FLATTER),
    (4, &TIMBER, LOWER),
    (7, &TIMBER, HEELED),
    (8, &TIMBER, GUSTY),
];

pub fn add(cases: &mut Cases) {
    for (criterion, set, edge) in &FERRIES {
        let name = format!(
            "ferry passes {criterion} in tenths alone, by {:02X}",
            set.tag
        );
        cases.add(name, |dice| {
            turned(dice, set, edge, (*criterion, [FAIL, PASS])).text(dice)
        });
    }
    for set in [&CODE, &TIMBER] {
        let name = format!("ferry passes 8 in millimetres alone, by {:02X}", set.tag);
        cases.add(name, move |dice| {
            turned(dice, set, &TENDER, (8, [PASS, FAIL])).text(dice)
        });
    }
}

/// A criterion, and its verdicts in millimetres and in tenths.
type Turn = (usize, [u8; 2]);

const TRIES: usize = 300;

/// A ferry of which this criterion has these verdicts, and no other one two.
fn turned(dice: &mut Dice, set: &'static CriteriaSet, edge: &Edge, turn: Turn) -> Vessel {
    let mut vessel = brought(dice, set, edge);
    for _ in 0..TRIES {
        let (criterion, [_, tenths]) = turn;
        let least = least_pass(&vessel, criterion, edge.station);
        let tuned = lifted(&vessel, edge.station, least - i128::from(tenths == FAIL));
        if verdicts(&tuned).is_some_and(|verdicts| turns(verdicts, turn)) {
            return tuned;
        }
        vessel = brought(dice, set, edge);
    }
    vessel
}

/// A ferry near the edge, with a KG one tenth above a whole millimetre.
fn brought(dice: &mut Dice, set: &'static CriteriaSet, edge: &Edge) -> Vessel {
    let mut vessel = ferry(dice);
    vessel.criteria = set;
    vessel.weather.flooding = edge.flooding;
    vessel.weather.deck_edge = 400;
    shape(&mut vessel, &edge.levers);
    vessel.set_gm(TENTHS.of(edge.gm + dice.between(0, 99)) - 1);
    blow(&mut vessel, edge.wind);
    vessel
}

fn lifted(vessel: &Vessel, station: usize, more: i128) -> Vessel {
    let mut vessel = vessel.clone();
    vessel.laden().kn[station] += more;
    vessel
}

/// What is said of the ferry in millimetres and in tenths.
fn verdicts(vessel: &Vessel) -> Option<[[u8; 8]; 2]> {
    let document = read_text(&vessel.draft(vessel.items()).text()).ok()?;
    let judged = [MILLIMETRES, TENTHS].map(|unit| judge_in(&document, unit).ok());
    let [Some(millimetres), Some(tenths)] = judged else {
        return None;
    };
    Some([millimetres.verdicts, tenths.verdicts])
}

fn turns([millimetres, tenths]: [[u8; 8]; 2], (criterion, turn): Turn) -> bool {
    (1..)
        .zip(millimetres.into_iter().zip(tenths))
        .all(|(number, (one, other))| {
            if number == criterion {
                [one, other] == turn
            } else {
                one == other
            }
        })
}

/// The least that KN at a station is to be lifted by for a pass in tenths.
fn least_pass(vessel: &Vessel, criterion: usize, station: usize) -> i128 {
    let passes = |more: i128| {
        let verdicts = verdicts(&lifted(vessel, station, more));
        verdicts.is_some_and(|[_, tenths]| tenths[criterion - 1] == PASS)
    };
    let (mut fails, mut holds) = (-120, 120);
    while holds - fails > 1 {
        let middle = (fails + holds) / 2;
        if passes(middle) {
            holds = middle;
        } else {
            fails = middle;
        }
    }
    holds
}
