//! The laden ship and the wind on it, each value exact or rounded: KG to a
//! tenth of a millimetre, the others to a whole one.

use super::fraction::Fraction;
use super::rounding::{Kept, Rounding};
use crate::book::Document;
use crate::line::between;
use crate::loading::{rows_around, sums};
use crate::unit::TENTHS;

pub struct Hull {
    /// In tenths of a millimetre.
    pub kg: Fraction,
    pub km: Fraction,
    pub draught: Fraction,
    pub kn: Vec<Fraction>,
    pub lw1: Fraction,
    pub lw2: Fraction,
}

impl Hull {
    /// None where the mass is off the rows.
    pub fn of(document: &Document, kept: Kept) -> Option<Hull> {
        let (mass, moment) = sums(&document.condition.entries);
        let (lower, upper) = rows_around(&document.rows, mass)?;
        let at_load = |rounding: Rounding, of_lower: i128, of_upper: i128| {
            let left = (lower.displacement, of_lower);
            let right = (upper.displacement, of_upper);
            let (above, below) = between(left, right, mass);
            kept.down(rounding, Fraction::of(above, below))
        };
        let kn = lower.kn.iter().zip(&upper.kn);
        let weather = &document.condition.weather;
        let heeling = 5_040 * weather.wind_area * weather.arm;
        let lw1 = kept.up(Rounding::Lw1, Fraction::of(heeling, 981 * mass));
        Some(Hull {
            kg: kept.up(Rounding::Kg, Fraction::of(TENTHS.of(moment), mass)),
            km: at_load(Rounding::Km, lower.km, upper.km),
            draught: at_load(Rounding::Draught, lower.draught, upper.draught),
            kn: kn
                .map(|(&below, &above)| at_load(Rounding::Kn, below, above))
                .collect(),
            lw2: kept.up(Rounding::Lw2, lw1.times(3).part(2)),
            lw1,
        })
    }

    /// In tenths of a millimetre.
    pub fn gm(&self) -> Fraction {
        &self.km.times(TENTHS.of(1)) - &self.kg
    }

    /// The draught in tenths of a millimetre.
    pub fn waterline(&self) -> Fraction {
        self.draught.times(TENTHS.of(1))
    }
}
