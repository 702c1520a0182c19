//! The loading condition: total mass, the corrected KG, and the ship's
//! draught, KM and KN at that displacement.

use crate::book::{Document, Entry, Liquid, Row, Weight};
use crate::line::{between, down, up};
use crate::refusal::Refusal;
use crate::unit::{Unit, TENTHS};

const NOMINALLY_FULL: i128 = 980;
/// In millimetres: 600,000 in tenths.
const HIGHEST_KG: i128 = 60_000;

#[derive(Clone, Debug, PartialEq)]
pub struct Laden {
    /// The unit of KG and of what follows from it.
    pub unit: Unit,
    pub displacement: i128,
    pub kg: i128,
    pub draught: i128,
    pub km: i128,
    pub kn: Vec<i128>,
}

impl Laden {
    pub fn gm(&self) -> i128 {
        self.unit.of(self.km) - self.kg
    }
}

/// The mass of entries and their moment about the keel, free surfaces in it.
pub fn sums(entries: &[Entry]) -> (i128, i128) {
    entries.iter().fold((0, 0), |(mass, moment), entry| {
        let (more_mass, more_moment) = match entry {
            Entry::Item(weight) => counted(weight, 0),
            Entry::Tank(weight, liquid) => {
                let counts = liquid.fill > 0 && liquid.fill < NOMINALLY_FULL;
                counted(weight, free_surface(liquid, counts))
            }
            Entry::Cargo(weight, liquid) => counted(weight, free_surface(liquid, liquid.fill > 0)),
            Entry::Group(inner) => sums(inner),
        };
        (mass + more_mass, moment + more_moment)
    })
}

fn counted(weight: &Weight, surface: i128) -> (i128, i128) {
    (weight.mass, weight.mass * weight.centre + surface)
}

/// The free surface moment of a liquid, where it counts.
fn free_surface(liquid: &Liquid, counts: bool) -> i128 {
    if counts {
        1_000 * liquid.density * liquid.inertia
    } else {
        0
    }
}

/// The laden ship, or refusal 7 (off the rows) or 8 (KG too high).
pub fn laden(document: &Document) -> Result<Laden, Refusal> {
    laden_in(document, TENTHS)
}

/// The same with KG rounded up to a whole number of this unit.
pub fn laden_in(document: &Document, unit: Unit) -> Result<Laden, Refusal> {
    let (displacement, moment) = sums(&document.condition.entries);
    let Some((lower, upper)) = rows_around(&document.rows, displacement) else {
        return Err(Refusal::of_loading(7));
    };
    let kg = up(unit.of(moment), displacement);
    if kg > unit.of(HIGHEST_KG) {
        return Err(Refusal::of_loading(8));
    }
    let at_load = |of_lower: i128, of_upper: i128| {
        let left = (lower.displacement, of_lower);
        let right = (upper.displacement, of_upper);
        let (numerator, denominator) = between(left, right, displacement);
        down(numerator, denominator)
    };
    let kn = lower.kn.iter().zip(&upper.kn);
    Ok(Laden {
        unit,
        displacement,
        kg,
        draught: at_load(lower.draught, upper.draught),
        km: at_load(lower.km, upper.km),
        kn: kn.map(|(&below, &above)| at_load(below, above)).collect(),
    })
}

/// The neighbouring rows with the displacement between them, ends included.
pub fn rows_around(rows: &[Row], displacement: i128) -> Option<(&Row, &Row)> {
    rows.windows(2).find_map(|pair| match pair {
        [lower, upper]
            if lower.displacement <= displacement && displacement <= upper.displacement =>
        {
            Some((lower, upper))
        }
        _ => None,
    })
}

#[cfg(test)]
mod tests {
    use super::*;

    const FILLS: [i128; 6] = [0, 1, 979, 980, 985, 1_000];
    const MOMENT: i128 = 7_175_000;

    /// The moment of an entry without a mass, at each of the fills.
    fn moments(entry: fn(Weight, Liquid) -> Entry) -> [i128; 6] {
        FILLS.map(|fill| {
            let weight = Weight { mass: 0, centre: 9 };
            let liquid = Liquid {
                fill,
                density: 1_025,
                inertia: 7,
            };
            sums(&[entry(weight, liquid)]).1
        })
    }

    #[test]
    fn free_surface_between_empty_and_nominally_full() {
        assert_eq!(moments(Entry::Tank), [0, MOMENT, MOMENT, 0, 0, 0]);
    }

    #[test]
    fn free_surface_of_a_cargo_tank_at_every_fill_but_0() {
        let [empty, others @ ..] = moments(Entry::Cargo);
        assert_eq!((empty, others), (0, [MOMENT; 5]));
    }

    #[test]
    fn a_cargo_tank_weighs_as_a_tank_does() {
        for fill in FILLS {
            let liquid = Liquid {
                fill,
                density: 0,
                inertia: 7,
            };
            let weight = Weight {
                mass: 3,
                centre: 50,
            };
            let entries = [Entry::Cargo, Entry::Tank].map(|of| of(weight.clone(), liquid.clone()));
            assert_eq!(sums(&entries[..1]), (3, 150));
            assert_eq!(sums(&[Entry::Group(entries.to_vec())]), (6, 300));
        }
    }
}
