//! Request 3, the whole booklet: so many conditions (`counts.rs`), lines out
//! of their place (`places.rs`), faults inside conditions (`inside.rs`),
//! conditions that differ (`unlike.rs`), rooms (`rooms.rs`), limits and lengths
//! of texts (`limits.rs`) and of lines (`lines.rs`).

mod counts;
mod inside;
mod limits;
mod lines;
mod places;
mod rooms;
mod unlike;

#[cfg(test)]
mod tests;

use super::cases::Cases;
use super::dice::Dice;
use super::draft::{item, line, tank, Block, Draft};
use super::faults::{apply, Fault};
use super::vessel::{self, Vessel};
use crate::instrument::Call;

pub fn add(cases: &mut Cases) {
    counts::add(cases);
    places::add(cases);
    inside::add(cases);
    unlike::add(cases);
    rooms::add(cases);
    limits::add(cases);
    lines::add(cases);
}

/// The frame of a booklet's first condition: its ship has two rows.
const FIRST: usize = 3;

/// A ship of two rows, on the first of them.
pub fn coaster(dice: &mut Dice) -> Vessel {
    let mut vessel = vessel::judged(dice);
    vessel.rows.truncate(2);
    vessel.mass = vessel.rows[0].displacement;
    vessel
}

/// A ship with so many conditions.
fn booklet(dice: &mut Dice, count: usize) -> Draft {
    let vessel = coaster(dice);
    bound(dice, &vessel, count)
}

/// So many conditions of a ship, each a voyage of its own with one item.
pub fn bound(dice: &mut Dice, vessel: &Vessel, count: usize) -> Draft {
    let mut draft = vessel.hull();
    for _ in 0..count {
        let voyage = vessel.voyage(dice);
        let entries = vec![item(voyage.mass, voyage.kg)];
        draft.frames.push(voyage.condition(entries));
    }
    draft
}

/// Ship, rows and one condition for each list of entries.
pub fn with_entries(vessel: &Vessel, conditions: Vec<Vec<Block>>) -> Vec<u8> {
    let mut draft = vessel.hull();
    let frames = conditions
        .into_iter()
        .map(|entries| vessel.condition(entries));
    draft.frames.extend(frames);
    draft.text()
}

/// The bytes of a draft's lines.
pub fn lines_of(draft: &Draft) -> Vec<Vec<u8>> {
    draft.frames.iter().map(|frame| frame.bytes()).collect()
}

pub fn text_of(lines: &[Vec<u8>]) -> Vec<u8> {
    lines.iter().flat_map(|bytes| line(bytes)).collect()
}

pub fn limited(text: Vec<u8>, limit: usize) -> Call {
    Call {
        limit,
        ..text.into()
    }
}

pub fn roomed(text: Vec<u8>, room: usize) -> Call {
    Call {
        room,
        ..text.into()
    }
}

/// The numbers that can be said of a condition, in order.
pub const NUMBERS: [u8; 7] = [2, 3, 4, 5, 6, 7, 8];

/// Where in a condition a fault can be put, for each of the numbers 2 to 6.
fn ways(number: u8) -> &'static [(&'static [usize], Fault)] {
    match number {
        2 => &[
            (&[], Fault::PastAll),
            (&[], Fault::PastParent),
            (&[], Fault::Cut(1)),
            (&[], Fault::Cut(2)),
            (&[], Fault::Stray(1)),
            (&[1], Fault::PastParent),
            (&[1], Fault::Cut(2)),
        ],
        3 => &[
            (&[], Fault::OneShort),
            (&[0], Fault::BodyShort),
            (&[1], Fault::BodyShort),
            (&[1], Fault::OneShort),
        ],
        4 => &[(&[0], Fault::Tag), (&[1], Fault::Tag)],
        5 => &[(&[], Fault::Empty), (&[], Fault::First)],
        _ => &[(&[0], Fault::Value), (&[1], Fault::Value)],
    }
}

/// Puts a fault of this number into the condition at a frame.
pub fn spoil(dice: &mut Dice, draft: &mut Draft, frame: usize, number: u8) {
    match number {
        7 => {
            let row = 1 + dice.index(2);
            let beside = if row == 1 { -1 } else { 1 };
            let mass = draft.frames[row].values[0] + beside;
            draft.at(&[frame, 1]).values[0] = mass;
        }
        8 => {
            draft.at(&[frame, 1]).values[1] = 60_000;
            let surface = tank(0, 0, 500, 2_000, 100_000);
            draft.at(&[frame]).inner.push(surface);
        }
        _ => {
            let (inside, fault) = dice.pick(ways(number));
            let path = [&[frame], inside].concat();
            apply(dice, draft, &path, fault);
        }
    }
}
