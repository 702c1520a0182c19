//! Each field of each block at its limits and one beyond them, wherever the
//! field's bytes can hold that, and at the most its bytes can hold.

use super::cases::Cases;
use super::dice::Dice;
use super::draft::{item, nested, tank, Block, Draft};
use super::mend::{mend, GREATEST, OPEN};
use super::slips::FIRST_KN;
use super::vessel::{self, Vessel};
use crate::book::Row;
use crate::layout::{fields, Field, A1, A2, C1, C2, C3};

pub fn add(cases: &mut Cases) {
    for tag in [A1, A2, C1, C2, C3] {
        for (index, field) in fields(tag).unwrap_or_default().iter().enumerate() {
            for value in values(field) {
                let name = format!("bound {tag:02X} field {index} value {value}");
                let inner = tag == A2 && (FIRST_KN + 2..FIRST_KN + 12).contains(&index);
                cases.add_spared(inner && value == 65_535, name, move |dice| {
                    at_bound(dice, tag, index, value)
                });
            }
        }
    }
    add_rising(cases);
    add_tanks(cases);
    for (name, end) in ENDS {
        cases.add(name, move |dice| all_at(dice, end).text());
    }
}

/// Either end of a field's limits.
pub type End = fn(&Field) -> i128;

pub const ENDS: [(&str, End); 2] = [
    ("all limits low", |field| field.least),
    ("all limits high", |field| field.most),
];

pub fn values(field: &Field) -> Vec<i128> {
    let most_held = (1 << (8 * field.width)) - 1;
    let (least, most) = (field.least, field.most);
    let mut values = vec![least - 1, least, most, most + 1, most_held];
    values.retain(|&value| (0..=most_held).contains(&value));
    values.sort();
    values.dedup();
    values
}

/// Two rows, and items and tanks beside and within two groups.
pub fn base(dice: &mut Dice) -> (Vessel, Draft) {
    let mut vessel = vessel::judged(dice);
    vessel.rows.truncate(2);
    vessel.mass = vessel.rows[dice.index(2)].displacement;
    let part = dice.between(1, vessel.mass / 4);
    let kg = vessel.kg;
    let deep = nested(2, vec![item(part, kg), tank(part, kg, 500, 1_025, 20)]);
    let mut entries = vec![
        item(vessel.mass - 3 * part, kg),
        tank(part, kg, 990, 850, 30),
    ];
    entries.extend(deep);
    let draft = vessel.draft(entries);
    (vessel, draft)
}

fn at_bound(dice: &mut Dice, tag: u8, index: usize, value: i128) -> Vec<u8> {
    let (_, mut draft) = base(dice);
    let paths = draft.paths_of(tag);
    let path = match (tag, index) {
        (A2, 0) if value <= 100_001 => paths[0].clone(),
        (A2, 0) => paths[paths.len() - 1].clone(),
        _ => dice.pick(&paths),
    };
    draft.at(&path).values[index] = value;
    if tag == A2 && index > FIRST_KN {
        smooth_around(draft.at(&path), index, value);
    }
    draft.text()
}

/// Makes a row smooth with this value in its place, where there is such a row.
/// There is none with 30,000 before 60 degrees, which is refused.
fn smooth_around(block: &mut Block, index: usize, value: i128) {
    let mut row = Row {
        displacement: block.values[0],
        draught: block.values[1],
        km: block.values[2],
        kn: block.values[FIRST_KN..].to_vec(),
    };
    let mut bounds = OPEN;
    bounds[index - FIRST_KN] = (value, value);
    if mend(&mut row, &bounds) {
        block.values[FIRST_KN..].copy_from_slice(&row.kn);
    }
}

/// W of a row one under, equal to and one over the row before it.
fn add_rising(cases: &mut Cases) {
    for row in [2, 3] {
        for step in [-1, 0, 1] {
            cases.add(format!("row {row} rises by {step}"), move |dice| {
                let mut vessel = vessel::judged(dice);
                let mut last = vessel.rows[vessel.rows.len() - 1].clone();
                last.displacement += 1_000;
                vessel.rows.push(last);
                let mut draft = vessel.draft(vessel::level(dice, vessel.mass, vessel.kg));
                let before = draft.frames[row - 1].values[0];
                draft.frames[row].values[0] = before + step;
                draft.text()
            });
        }
    }
}

/// Fill 0 with and without a mass, and the fills where the free surface ends.
fn add_tanks(cases: &mut Cases) {
    for (fill, mass) in [
        (0, 0),
        (0, 1),
        (0, 600_000_000),
        (1, 0),
        (1, 5),
        (979, 5),
        (980, 5),
    ] {
        for depth in [0, 4] {
            cases.add(
                format!("fill {fill} mass {mass} depth {depth}"),
                move |dice| {
                    let vessel = vessel::judged(dice);
                    let tested = tank(mass, vessel.kg, fill, 1_025, 30);
                    let mut entries = nested(depth, vec![tested]);
                    entries.push(item((vessel.mass - mass).max(0), vessel.kg));
                    vessel.draft(entries).text()
                },
            );
        }
    }
}

/// Every field of every block at the same end of its limits, as far as the
/// rows' rising, the sum of the masses and smooth rows let them.
pub fn all_at(dice: &mut Dice, end: End) -> Draft {
    let (_, mut draft) = base(dice);
    draft.condition().inner.truncate(2);
    draft.condition().inner.push(tank(0, 0, 0, 0, 0));
    for tag in [A1, A2, C1, C2, C3] {
        let ends: Vec<i128> = fields(tag).unwrap_or_default().iter().map(end).collect();
        for path in draft.paths_of(tag) {
            draft.at(&path).values = ends.clone();
        }
    }
    for path in draft.paths_of(A2) {
        let values = &mut draft.at(&path).values[FIRST_KN..];
        for (kn, greatest) in values.iter_mut().zip(GREATEST) {
            *kn = greatest.min(*kn);
        }
    }
    let displacement = draft.frames[1].values[0];
    draft.condition().inner[1].values[0] = displacement;
    draft.condition().inner[2].values[0] = 0;
    let inward = if displacement == 100_000 { 2 } else { 1 };
    draft.frames[inward].values[0] += if inward == 2 { 1 } else { -1 };
    draft
}
