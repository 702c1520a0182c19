//! Conditions that differ in one thing, so that a program that judges all of
//! them with what it has of the first, or goes on with its sums, is found out;
//! and texts without a condition.

use super::{booklet, coaster, lines_of, text_of, with_entries};
use crate::book::Weather;
use crate::corpus::cases::Cases;
use crate::corpus::dice::Dice;
use crate::corpus::draft::{cargo, item, nested, tank, Block};
use crate::corpus::load::{grouped, mixed, spread};
use crate::corpus::vessel::Vessel;
use crate::sets::{CODE, TIMBER};

/// Another value of one thing, for the condition of this number.
type Change = fn(&mut Vessel, i128);

const CHANGES: [(&str, Change); 9] = [
    ("wind area", |vessel, number| {
        vessel.weather.wind_area *= number + 1;
    }),
    ("arm", |vessel, number| vessel.weather.arm *= number + 1),
    ("block coefficient", |vessel, number| {
        vessel.weather.block_coefficient = 700 - 90 * number;
    }),
    ("flooding angle", |vessel, number| {
        vessel.weather.flooding = 600 - 150 * number;
    }),
    ("deck edge", |vessel, number| {
        let Weather { deck_edge, .. } = &mut vessel.weather;
        *deck_edge = 1 + 300 * (number % 2);
    }),
    ("criteria from the Code's", |vessel, number| {
        vessel.criteria = [&CODE, &TIMBER][number as usize % 2];
    }),
    ("criteria from timber's", |vessel, number| {
        vessel.criteria = [&TIMBER, &CODE][number as usize % 2];
    }),
    ("mass", |vessel, number| {
        let [first, last] = [0, 1].map(|row| vessel.rows[row].displacement);
        vessel.mass = last - number * (last - first) / 2;
    }),
    ("height", |vessel, number| vessel.kg -= 40 * number),
];

pub fn add(cases: &mut Cases) {
    for (name, change) in CHANGES {
        cases.add(
            format!("three conditions that differ in {name}"),
            move |dice| {
                let vessel = coaster(dice);
                let mut draft = vessel.hull();
                for number in 0..3 {
                    let mut other = vessel.clone();
                    change(&mut other, number);
                    let weight = item(other.mass, other.kg);
                    draft.frames.push(other.condition(vec![weight]));
                }
                draft.text()
            },
        );
    }
    cases.add("a condition, another, and the first again", |dice| {
        let mut lines = lines_of(&booklet(dice, 2));
        lines.push(lines[3].clone());
        text_of(&lines)
    });
    add_sums(cases);
    add_depths(cases);
    add_none(cases);
}

/// Masses and moments that do not go on into the next condition.
fn add_sums(cases: &mut Cases) {
    cases.add("two halves of a mass in two conditions", |dice| {
        let vessel = coaster(dice);
        let half = vec![item(vessel.rows[0].displacement / 2 + 1, vessel.kg)];
        with_entries(&vessel, vec![half.clone(), half])
    });
    cases.add("no mass between two conditions", |dice| {
        let vessel = coaster(dice);
        let whole = vec![item(vessel.rows[1].displacement, vessel.kg)];
        with_entries(&vessel, vec![whole.clone(), vec![item(0, 9)], whole])
    });
    cases.add("free surfaces in the first condition only", |dice| {
        let vessel = coaster(dice);
        let mass = vessel.rows[0].displacement;
        let surface = [
            tank(0, 9, 500, 1_025, 60),
            cargo(tank(0, 9, 1_000, 850, 60)),
        ];
        let plain = vec![item(mass, vessel.kg)];
        let wet = [&plain[..], &surface].concat();
        with_entries(&vessel, vec![wet.clone(), plain, wet])
    });
    cases.add("many entries, then one, then many", |dice| {
        let vessel = coaster(dice);
        let mut draft = vessel.hull();
        for count in [6, 1, 5] {
            let voyage = vessel.voyage(dice);
            let entries = loaded(dice, &voyage, count);
            draft.frames.push(voyage.condition(entries));
        }
        draft.text()
    });
}

/// Depths and numbers of entries that do not either.
fn add_depths(cases: &mut Cases) {
    cases.add("four groups deep in each condition", |dice| {
        let vessel = coaster(dice);
        let deep = nested(4, vec![item(vessel.rows[0].displacement, vessel.kg)]);
        with_entries(&vessel, vec![deep.clone(), deep])
    });
    cases.add("five groups deep between four groups deep", |dice| {
        let vessel = coaster(dice);
        let deep = |depth| nested(depth, vec![item(vessel.rows[0].displacement, vessel.kg)]);
        with_entries(&vessel, [4, 5, 4].map(deep).to_vec())
    });
    for counts in [[200, 200], [201, 200], [200, 201]] {
        let name = format!("{} and {} entries", counts[0], counts[1]);
        cases.add_full(name, move |dice| {
            let vessel = coaster(dice);
            let filled = counts.map(|count| {
                let mut entries = vec![item(0, 5); count];
                entries[0] = item(vessel.rows[0].displacement, vessel.kg);
                entries
            });
            with_entries(&vessel, filled.to_vec())
        });
    }
}

fn loaded(dice: &mut Dice, vessel: &Vessel, count: usize) -> Vec<Block> {
    let entries = spread(dice, vessel, count);
    let entries = mixed(dice, entries);
    grouped(dice, entries)
}

/// Texts that end before their first condition.
fn add_none(cases: &mut Cases) {
    for kept in 0..=3 {
        cases.add(format!("no condition, {kept} lines"), move |dice| {
            let mut lines = lines_of(&coaster(dice).hull());
            lines.truncate(kept);
            text_of(&lines)
        });
    }
    cases.add_full("no condition, 40 rows", |dice| {
        let vessel = coaster(dice);
        let mut row = vessel.rows[0].clone();
        let mut draft = vessel.hull();
        draft.frames.truncate(1);
        for _ in 0..40 {
            row.displacement += 7;
            draft.frames.push(crate::corpus::draft::row(&row));
        }
        draft.text()
    });
}
