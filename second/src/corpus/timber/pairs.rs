//! What the two sets say of the same text: texts that one set passes and the
//! other fails in one slot alone, criterion 8 in all its ways, and timber
//! carriers with tanks and cargo tanks.

use super::{add_either, shaped, Levers};
use crate::corpus::cargo::{self, filled, left_with, planned, turned};
use crate::corpus::cases::Cases;
use crate::corpus::dice::Dice;
use crate::corpus::rolls::with_period;
use crate::corpus::vessel::{self, Vessel};
use crate::corpus::winds::{blow, ended, net, overblown, ENDS, NONE};
use crate::sets::TIMBER;
use crate::unit::TENTHS;

pub fn add(cases: &mut Cases) {
    add_alone(cases);
    add_between(cases);
    add_weather(cases);
    add_unjudged(cases);
    add_tanks(cases);
}

/// A curve that both sets pass.
const SOUND: Levers = [0, 60, 130, 210, 300, 380, 440, 480, 500, 490, 460, 410, 350];

/// A ship with these levers, up to two millimetres more at each station, that
/// both sets pass by her GM, in a light wind and with a high deck edge.
fn fair(dice: &mut Dice, levers: &Levers, flooding: i128) -> Vessel {
    let mut levers = *levers;
    for lever in &mut levers[1..] {
        *lever += dice.between(0, 2);
    }
    let mut vessel = shaped(dice, &levers, flooding);
    let gm = dice.between(700, 1_000);
    vessel.set_gm(TENTHS.of(gm));
    vessel.weather.deck_edge = 400;
    blow(&mut vessel, 15);
    vessel
}

type Draw = fn(&mut Dice) -> Vessel;

/// Texts that one set passes in every slot it judges, and that the other
/// fails in the slot named and in no other.
const ALONE: [(&str, Draw); 10] = [
    ("fails in no slot", |dice| fair(dice, &SOUND, 600)),
    ("fails by the Code in slot 1 alone", |dice| {
        let slow = [0, 20, 45, 75, 115, 170, 240, 330, 420, 480, 500, 490, 460];
        fair(dice, &slow, 600)
    }),
    ("fails by the Code in slot 2 alone", |dice| {
        let flooding = dice.between(310, 335);
        fair(dice, &SOUND, flooding)
    }),
    ("fails by the Code in slot 3 alone", |dice| {
        let flat = [0, 34, 74, 114, 150, 174, 184, 186, 192, 255, 290, 270, 220];
        fair(dice, &flat, 600)
    }),
    ("fails by the Code in slot 4 alone", |dice| {
        let early = [0, 60, 130, 200, 250, 290, 195, 190, 185, 170, 140, 100, 50];
        fair(dice, &early, 600)
    }),
    ("fails by the Code in slot 5 alone", |dice| {
        let early = [0, 90, 190, 280, 340, 330, 320, 300, 280, 250, 210, 160, 100];
        fair(dice, &early, 600)
    }),
    ("fails by the Code in slot 6 alone", |dice| {
        let mut vessel = fair(dice, &SOUND, 600);
        let gm = dice.between(1_000, 1_499);
        vessel.set_gm(gm);
        vessel
    }),
    ("fails by the Code in slot 7 alone", |dice| {
        let mut vessel = fair(dice, &SOUND, 600);
        vessel.weather.deck_edge = dice.between(1, 9);
        vessel
    }),
    ("fails as timber in slot 4 alone", |dice| {
        let low = [0, 45, 95, 140, 170, 190, 205, 220, 235, 240, 230, 210, 180];
        fair(dice, &low, 600)
    }),
    ("fails by both in slot 8 alone", |dice| {
        let mut vessel = fair(dice, &SOUND, 600);
        blow(&mut vessel, 205);
        vessel
    }),
];

fn add_alone(cases: &mut Cases) {
    for (name, draw) in ALONE {
        add_either(cases, name, draw);
    }
    add_either(cases, "fails by the Code by flooding before 30", |dice| {
        let flooding = dice.between(280, 299);
        let mut vessel = fair(dice, &SOUND, flooding);
        vessel.ship.sharp_bilge = true;
        vessel
    });
}

/// A greatest lever from 0.20 m, the Code's limit, to 0.25 m, that of timber.
fn add_between(cases: &mut Cases) {
    for lever in [199, 200, 201, 224, 248, 249, 250] {
        let name = format!("greatest lever of {lever} mm at 40 degrees");
        add_either(cases, &name, move |dice| {
            let shares = [0, 21, 43, 62, 75, 84, 90, 96, 100, 99, 95, 88, 76];
            let levers = shares.map(|share| lever * share / 100);
            shaped(dice, &levers, 600)
        });
    }
}

/// Criterion 8 as before: nets at the edge, angles that are none, no wind, and
/// flooding before and at phi0 and u.
fn add_weather(cases: &mut Cases) {
    for beside in [-1, 0, 1] {
        add_either(cases, &format!("timber net {beside:+}"), move |dice| {
            net(dice, beside)
        });
    }
    for (name, beyond) in NONE {
        add_either(cases, &format!("timber {name}"), move |dice| {
            overblown(dice, beyond)
        });
    }
    for (name, of_gust, before) in ENDS {
        add_either(cases, &format!("timber {name}"), move |dice| {
            ended(dice, of_gust, before)
        });
    }
    add_either(cases, "timber no wind area", |dice| {
        let mut vessel = vessel::judged(dice);
        vessel.weather.wind_area = 0;
        vessel
    });
}

/// Criterion 8 not judged, each reason alone and at its edge.
fn add_unjudged(cases: &mut Cases) {
    for breadth in [13_999, 14_000] {
        let name = format!("timber B {breadth} at d 4000");
        add_either(cases, &name, move |dice| {
            let mut vessel = vessel::judged_at(dice, 4_000, 3_400);
            vessel.ship.breadth = breadth;
            vessel
        });
    }
    for kg in [27_999, 28_000, 60_000, 60_001] {
        let name = format!("timber KG {kg} tenths at d 4000");
        add_either(cases, &name, move |dice| {
            let mut vessel = vessel::judged_at(dice, 4_000, 2_600);
            vessel.raise_to(kg);
            vessel
        });
    }
    for n in [1_999, 2_000] {
        add_either(cases, &format!("timber period {n}"), move |dice| {
            with_period(dice, n)
        });
    }
}

/// Tanks and cargo tanks behind a C6: their fills, and a free surface by which
/// each criterion of the timber set fails in its turn.
fn add_tanks(cases: &mut Cases) {
    let [tank, cargo] = cargo::EITHER;
    for (fill, depth) in [(979, 0), (980, 0), (980, 4), (985, 4), (1_000, 0)] {
        let name = format!("timber fill {fill} depth {depth}");
        cases.add_twins(&[tank, cargo, cargo::BOTH], &name, move |dice, kind| {
            let draft = filled(dice, (fill, 5_000), depth, kind);
            draft.judged_by(&TIMBER).text()
        });
    }
    for gm in [999, 1_000] {
        let name = format!("timber planner's tank, GM {gm} tenths with its surface");
        cases.add_twins(&cargo::EITHER, &name, move |dice, kind| {
            let (vessel, inertia) = left_with(dice, &TIMBER, gm);
            planned(&vessel, inertia, kind)
        });
    }
    for criterion in [3, 4, 6, 7, 8] {
        let name = format!("timber planner's tank, criterion {criterion}");
        cases.add_twins(&cargo::EITHER, &name, move |dice, kind| {
            let (vessel, inertia) = turned(dice, &TIMBER, criterion);
            planned(&vessel, inertia, kind)
        });
    }
}
