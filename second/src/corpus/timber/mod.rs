//! Timber on deck: the limits of the timber set and the curves that it looks
//! at in its own way (`limits.rs`), what each set says of the same text
//! (`pairs.rs`), and C6 as a block (`blocks.rs`).

mod blocks;
mod limits;
mod pairs;

#[cfg(test)]
mod tests;

use super::cases::Cases;
use super::dice::Dice;
use super::vessel::{self, Vessel};
use crate::curve::SINES;
use crate::line::up;
use crate::sets::{CriteriaSet, CODE, TIMBER};

pub fn add(cases: &mut Cases) {
    limits::add(cases);
    pairs::add(cases);
    blocks::add(cases);
}

/// Either set, by the tag in C1's place.
static EITHER: [(&str, &CriteriaSet); 2] = [("C1", &CODE), ("C6", &TIMBER)];

/// A text by each set, with the same ship and the same values.
pub fn add_either(
    cases: &mut Cases,
    name: &str,
    make: impl Fn(&mut Dice) -> Vessel + Copy + 'static,
) {
    cases.add_twins(&EITHER, name, move |dice, set| {
        let mut vessel = make(dice);
        vessel.criteria = set;
        vessel.text(dice)
    });
}

/// Levers at the stations in whole millimetres.
pub type Levers = [i128; 13];

/// Gives the vessel these levers, each more by less than a millimetre.
pub fn shape(vessel: &mut Vessel, levers: &Levers) {
    let kg = vessel.kg;
    let kn = &mut vessel.laden().kn;
    for station in 1..13 {
        let upright = up(kg * SINES[station], 100_000);
        kn[station] = (upright + levers[station]).clamp(0, 30_000);
    }
}

/// A vessel with these levers that floods at this angle.
fn shaped(dice: &mut Dice, levers: &Levers, flooding: i128) -> Vessel {
    let mut vessel = vessel::judged(dice);
    vessel.weather.flooding = flooding;
    shape(&mut vessel, levers);
    vessel
}
