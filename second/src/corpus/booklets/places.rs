//! Lines out of their place: every tag before the first row, between the rows,
//! between conditions and behind them, each too short, with a length past its
//! line, and as a frame; a 41st row; an A3 before the second row.

use super::{bound, coaster, lines_of, text_of};
use crate::book::Row;
use crate::corpus::cases::Cases;
use crate::corpus::dice::Dice;
use crate::corpus::draft::{self, cargo, group, item, tank, Block};
use crate::corpus::vessel::Vessel;
use crate::layout::{A1, A2, A3, C1, C2, C3, C4, C5, C6};
use crate::sets::{CODE, TIMBER};

const TAGS: [u8; 13] = [A1, A2, A3, 0xA4, C1, C2, C3, C4, C5, C6, 0xD1, 0x00, 0xFF];

/// Where a line can be put, by the lines before it: a ship, two rows and two
/// conditions.
const PLACES: [(&str, usize); 4] = [
    ("before the first row", 1),
    ("between the rows", 2),
    ("between conditions", 4),
    ("behind all", 5),
];

/// What a line out of its place can be, the last of them whole.
const SHAPES: [&str; 4] = ["one byte", "two bytes", "past its line", "whole"];

/// A small corpus has of each tag and place the whole line, and of every
/// second one of the others.
pub fn add(cases: &mut Cases) {
    for (turn, tag) in TAGS.into_iter().enumerate() {
        for (more, (place, before)) in PLACES.into_iter().enumerate() {
            for (shape, word) in SHAPES.into_iter().enumerate() {
                let name = format!("{tag:02X} {place}, {word}");
                let make = move |dice: &mut Dice| with_line(dice, tag, shape, before);
                let sum = turn + more;
                let kept = shape == 3 || (sum % 2 == 0 && shape == sum % 3);
                cases.add_where(!kept, name, make);
            }
        }
    }
    for (shape, word) in SHAPES.into_iter().enumerate() {
        for tag in [A3, A2, C1] {
            let name = format!("{tag:02X} as the first line, {word}");
            cases.add_where(tag != A3, name, move |dice| with_line(dice, tag, shape, 0));
        }
        for tag in TAGS {
            let name = format!("{tag:02X} behind the rows, {word}");
            cases.add_full(name, move |dice| with_line(dice, tag, shape, 3));
        }
    }
    add_rows(cases);
}

/// A booklet of two conditions with a line put in behind so many others.
fn with_line(dice: &mut Dice, tag: u8, shape: usize, before: usize) -> Vec<u8> {
    let vessel = coaster(dice);
    let odd = shaped(dice, &vessel, tag, shape);
    let mut lines = lines_of(&bound(dice, &vessel, 2));
    lines.insert(before, odd);
    text_of(&lines)
}

fn shaped(dice: &mut Dice, vessel: &Vessel, tag: u8, shape: usize) -> Vec<u8> {
    let whole = frame(vessel, tag).bytes();
    match shape {
        0 => vec![tag],
        1 => vec![tag, 0],
        2 => {
            let mut cut = whole;
            cut.truncate(3 + dice.index(3));
            cut[1..3].copy_from_slice(&[0, 13]);
            cut
        }
        _ => whole,
    }
}

/// A sound frame with this tag, or an item's with another tag.
fn frame(vessel: &Vessel, tag: u8) -> Block {
    let weight = item(vessel.mass, vessel.kg);
    match tag {
        A1 => draft::ship(&vessel.ship),
        A2 => draft::row(&vessel.rows[1]),
        A3 => vessel.condition(vec![weight]),
        C1 => draft::weather(&CODE, &vessel.weather),
        C6 => draft::weather(&TIMBER, &vessel.weather),
        C3 => tank(vessel.mass, vessel.kg, 990, 1_025, 9),
        C5 => cargo(tank(vessel.mass, vessel.kg, 990, 1_025, 9)),
        C4 => group(vec![weight]),
        _ => {
            let mut odd = weight;
            odd.tag = tag;
            odd
        }
    }
}

/// A 41st row before two conditions, and a row that rises behind a condition.
fn add_rows(cases: &mut Cases) {
    for (shape, word) in SHAPES.into_iter().enumerate() {
        let make = move |dice: &mut Dice| {
            let vessel = coaster(dice);
            let mut lines = lines_of(&bound(dice, &vessel, 2));
            let mut row = vessel.rows[0].clone();
            let rows = rising(&mut row, 40);
            lines.splice(1..3, rows);
            let last = match shape {
                3 => rising(&mut row, 1).swap_remove(0),
                _ => shaped(dice, &vessel, A2, shape),
            };
            lines.insert(41, last);
            text_of(&lines)
        };
        let name = format!("41st row before two conditions, {word}");
        cases.add_where(shape != 1, name, make);
    }
    cases.add("a third row behind the first condition", |dice| {
        let vessel = coaster(dice);
        let mut lines = lines_of(&bound(dice, &vessel, 2));
        let mut row = vessel.rows[1].clone();
        lines.insert(4, rising(&mut row, 1).swap_remove(0));
        text_of(&lines)
    });
}

/// So many rows, each a kilogram heavier than the one before.
fn rising(row: &mut Row, count: usize) -> Vec<Vec<u8>> {
    let rows = (0..count).map(|_| {
        row.displacement += 1;
        draft::row(row).bytes()
    });
    rows.collect()
}
