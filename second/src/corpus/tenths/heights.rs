//! KG itself: just below, at and just above a whole millimetre and a whole
//! tenth, by items and by free surfaces; at 600,000 and beside; GM around its
//! limit, and r where its quotient comes out whole, a tenth at a time.

use super::{beside, ferry, moored};
use crate::corpus::booklets::{coaster, with_entries};
use crate::corpus::cases::Cases;
use crate::corpus::dice::Dice;
use crate::corpus::draft::{cargo, item, tank, Block};
use crate::corpus::vessel::Vessel;
use crate::sets::{CriteriaSet, CODE, TIMBER};
use crate::unit::TENTHS;

pub fn add(cases: &mut Cases) {
    cases.add("KG around a whole millimetre", |dice| {
        let vessel = coaster(dice);
        let conditions = AROUND.map(|off| beside_whole(&vessel, off));
        with_entries(&vessel, conditions.to_vec())
    });
    cases.add("KG around a whole millimetre by free surfaces", |dice| {
        let (vessel, surface) = rounded(dice);
        let loaded = |(density, kind): (i128, Kind)| {
            vec![item(vessel.mass, vessel.kg), kind(surface.with(density))]
        };
        with_entries(&vessel, SURFACES.map(loaded).to_vec())
    });
    cases.add("KG around 600,000 tenths", highest);
    for (name, set) in GMS {
        let limit = TENTHS.of(set.gm.unwrap_or_default());
        let name = format!("GM around {limit} tenths by {name}");
        cases.add(name, move |dice| {
            let mut vessel = ferry(dice);
            vessel.criteria = set;
            vessel.set_gm(limit);
            beside(&vessel, &[-11, -10, -9, -1, 0, 1, 9, 10, 11])
        });
    }
    cases.add("r around whole numbers at d 3600", |dice| {
        let mut vessel = moored(dice, 3_600);
        vessel.raise_to(TENTHS.of(3_600));
        beside(&vessel, &[-61, -60, -59, -10, -1, 0, 1, 10, 59, 60, 61])
    });
}

static GMS: [(&str, &CriteriaSet); 2] = [("the Code", &CODE), ("timber's criteria", &TIMBER)];

/// Tenths of the mass a millimetre higher, and then kilograms.
type Off = (i128, i128);

pub const AROUND: [Off; 11] = [
    (-1, -1),
    (-1, 0),
    (-1, 1),
    (0, -1),
    (0, 0),
    (0, 1),
    (1, -1),
    (1, 0),
    (1, 1),
    (9, 0),
    (9, 1),
];

/// The vessel's mass, some of it a millimetre higher or lower.
fn beside_whole(vessel: &Vessel, (tenths, kilograms): Off) -> Vec<Block> {
    let more = vessel.mass * tenths / 10 + kilograms;
    let part = more.abs();
    vec![
        item(vessel.mass - part, vessel.kg),
        item(part, vessel.kg + more.signum()),
    ]
}

/// The tank whose free surface is a tenth of a millimetre in KG.
struct Surface {
    density: i128,
    inertia: i128,
}

impl Surface {
    /// The tank with so much more density.
    fn with(&self, more: i128) -> Block {
        tank(0, 0, 979, self.density + more, self.inertia)
    }
}

/// What becomes of a tank.
type Kind = fn(Block) -> Block;

/// Densities beside that of a tenth, and the tank in C3 and C5 from 98 % on.
pub const SURFACES: [(i128, Kind); 6] = [
    (-1, |tank| tank),
    (0, |tank| tank),
    (1, |tank| tank),
    (0, filled),
    (-1, |tank| cargo(filled(tank))),
    (1, |tank| cargo(filled(tank))),
];

fn filled(mut tank: Block) -> Block {
    tank.values[2] = 980;
    tank
}

/// A ship with a mass that makes a free surface a tenth of a millimetre.
fn rounded(dice: &mut Dice) -> (Vessel, Surface) {
    let mut vessel = coaster(dice);
    let surface = Surface {
        density: dice.between(700, 1_100),
        inertia: dice.between(1, 4),
    };
    vessel.mass = 10_000 * surface.density * surface.inertia;
    for (row, more) in vessel.rows.iter_mut().zip([0, 5_000]) {
        row.displacement = vessel.mass + more;
    }
    (vessel, surface)
}

/// KG up to 600,000 by heights, and with a surface of a tenth, of a millimetre
/// and of the least that there is.
fn highest(dice: &mut Dice) -> Vec<u8> {
    let (mut vessel, surface) = rounded(dice);
    vessel.kg = 60_000;
    let by = |off: Off| beside_whole(&vessel, off);
    let and = |mut entries: Vec<Block>, more: Block| {
        entries.push(more);
        entries
    };
    let tenth = surface.with(0);
    let millimetre = tank(0, 0, 1, surface.density, 10 * surface.inertia);
    let conditions = vec![
        by((-10, 0)),
        by((-1, 0)),
        by((-1, 1)),
        by((0, 0)),
        and(by((-10, 0)), millimetre.clone()),
        and(by((-1, 0)), tenth.clone()),
        and(by((0, 0)), filled(tenth.clone())),
        and(by((-1, 1)), tenth.clone()),
        and(by((0, 0)), tank(0, 0, 1, 1, 1)),
        and(by((0, 0)), cargo(filled(tenth.clone()))),
        and(by((0, 0)), tenth),
        and(by((0, 0)), millimetre),
    ];
    with_entries(&vessel, conditions)
}
