//! Request 5, half a millimetre too much: KG beside whole millimetres, beside
//! its highest and where its tenths decide the roll (`heights.rs`), levers one
//! y unit beside the winds and periods met exactly (`met.rs`), and ships whose
//! verdict is another in tenths than in millimetres (`turns.rs`). The limits of
//! criteria 1 to 6 and of criterion 8's range stand with those of the base and
//! of timber.

mod heights;
mod met;
mod turns;

#[cfg(test)]
mod tests;

use super::booklets::with_entries;
use super::cases::Cases;
use super::dice::Dice;
use super::draft::Block;
use super::vessel::{self, Vessel};

pub fn add(cases: &mut Cases) {
    heights::add(cases);
    met::add(cases);
    turns::add(cases);
}

/// A small ship of two rows, on the first of them.
fn ferry(dice: &mut Dice) -> Vessel {
    let draught = dice.between(1_300, 1_600);
    let mut vessel = moored(dice, draught);
    vessel.ship.length = dice.between(24_000, 30_000);
    vessel
}

/// A ship of this draught and two rows, on the first of them: its mass can be
/// divided by 1,000.
fn moored(dice: &mut Dice, draught: i128) -> Vessel {
    let mut vessel = vessel::judged_at(dice, draught, 2_600);
    vessel.rows.truncate(2);
    vessel.mass = vessel.rows[0].displacement;
    vessel
}

/// A text with a condition for each KG, so many tenths above the vessel's own.
fn beside(vessel: &Vessel, besides: &[i128]) -> Vec<u8> {
    let own = vessel.kg_in_tenths();
    let loaded = |tenths: &i128| -> Vec<Block> { vessel.at_kg(own + tenths).items() };
    with_entries(vessel, besides.iter().map(loaded).collect())
}
