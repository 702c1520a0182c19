//! Where the mass stands among the rows, rows that rise and fall, and KG at
//! its highest by free surface.

use super::cases::Cases;
use super::dice::Dice;
use super::draft::{group, item, tank, Draft};
use super::vessel::{self, level, Vessel};

pub fn add(cases: &mut Cases) {
    for count in [2, 3, 5] {
        for (name, from_last, beside) in [
            ("first row", false, 0),
            ("first row and one", false, 1),
            ("one under the first row", false, -1),
            ("last row", true, 0),
            ("last row less one", true, -1),
            ("one over the last row", true, 1),
        ] {
            cases.add(format!("mass on the {name} of {count}"), move |dice| {
                let mut vessel = vessel::any(dice, count);
                let row = if from_last { count - 1 } else { 0 };
                vessel.mass = vessel.rows[row].displacement + beside;
                vessel.text(dice)
            });
        }
    }
    cases.add("mass on a middle row", |dice| {
        let mut vessel = vessel::any(dice, 3);
        vessel.mass = vessel.rows[1].displacement;
        vessel.text(dice)
    });
    cases.add("no mass at all", |dice| {
        let vessel = vessel::any(dice, 2);
        vessel
            .draft(vec![item(0, vessel.kg), tank(0, 1, 0, 1_000, 5)])
            .text()
    });
    cases.add("mass above all rows by many entries", |dice| {
        let vessel = vessel::any(dice, 2);
        vessel.draft(vec![item(600_000_000, 60_000); 9]).text()
    });
    cases.add("mass under the rows with KG too high", |dice| {
        let vessel = vessel::any(dice, 2);
        vessel
            .draft(vec![item(1, 60_000), tank(0, 0, 500, 1_000, 100_000)])
            .text()
    });
    cases.add("mass over the rows with KG too high", |dice| {
        let mut vessel = vessel::judged(dice);
        vessel.rows.truncate(2);
        let over = vessel.rows[1].displacement + 1;
        vessel
            .draft(vec![item(over, 60_000), tank(0, 0, 500, 1_000, 100_000)])
            .text()
    });
    add_slopes(cases);
    add_highest(cases);
}

/// Each value of the rows rising or falling between them, the mass one off
/// a row and in the midst.
fn add_slopes(cases: &mut Cases) {
    for rising in [true, false] {
        for part in [1, 3, 50, 97, 99] {
            cases.add(
                format!("rows rising {rising}, mass at {part} of 100"),
                move |dice| sloped(dice, rising, part),
            );
        }
    }
    cases.add("rows one kilogram apart", |dice| {
        let mut vessel = vessel::judged(dice);
        vessel.rows.truncate(2);
        vessel.rows[1].displacement = vessel.rows[0].displacement + 1;
        vessel.mass = vessel.rows[dice.index(2)].displacement;
        vessel.text(dice)
    });
}

fn sloped(dice: &mut Dice, rising: bool, part: i128) -> Vec<u8> {
    let mut vessel = vessel::judged(dice);
    vessel.rows.truncate(2);
    let sign = if rising { 1 } else { -1 };
    let low = vessel.rows[0].clone();
    let high = &mut vessel.rows[1];
    high.draught = low.draught + sign * dice.between(1, 400);
    high.km = low.km + sign * dice.between(1, 300);
    for (above, below) in high.kn.iter_mut().zip(&low.kn).skip(1) {
        *above = (below + sign * dice.between(1, 70)).max(0);
    }
    let width = high.displacement - low.displacement;
    vessel.mass = low.displacement + (width * part / 100).max(1);
    vessel.text(dice)
}

/// Corrected KG of 60,000 mm and just beside it by a free surface, by heights
/// alone, and KG rounded up by the least there can be.
fn add_highest(cases: &mut Cases) {
    for beside in [-1, 0, 1] {
        for whole in [1, 2] {
            cases.add(
                format!("KG 60,000 by free surface {beside:+}, {whole} m"),
                move |dice| highest(dice, beside, whole).text(),
            );
        }
    }
    for (centre, kilograms) in [(59_999, 0), (59_999, 1), (60_000, 0)] {
        cases.add(
            format!("KG of {centre} and {kilograms} kg higher"),
            move |dice| {
                let vessel = vessel::judged(dice);
                let rest = item(vessel.mass - kilograms, centre);
                vessel.draft(vec![rest, item(kilograms, 60_000)]).text()
            },
        );
    }
    cases.add(
        "KG rounded up by one kilogram a millimetre higher",
        |dice| {
            let vessel = vessel::judged(dice);
            let mut entries = level(dice, vessel.mass - 1, vessel.kg);
            entries.push(item(1, vessel.kg + 1));
            vessel.draft(entries).text()
        },
    );
}

/// The free surface raises KG by a whole number of millimetres, or by one
/// density unit less or more than that.
pub fn highest(dice: &mut Dice, beside: i128, whole: i128) -> Draft {
    let mut vessel: Vessel = vessel::judged(dice);
    let density = dice.between(700, 1_100);
    let inertia = whole * dice.between(2, 40);
    let mass = 1_000 * density * (inertia / whole);
    let lighter = dice.between(1, mass / 4);
    vessel.rows.truncate(2);
    vessel.rows[0].displacement = mass - lighter;
    vessel.rows[1].displacement = mass;
    let surface = tank(0, 0, dice.between(1, 979), density + beside, inertia);
    vessel.draft(vec![group(vec![surface]), item(mass, 60_000 - whole)])
}
