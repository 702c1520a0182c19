//! Texts by chance: sound ones of every size, of one condition and of many,
//! values anywhere, faults of blocks, and sound texts garbled; now and then
//! with another limit or another room.

use super::dice::Dice;
use super::draft::{item, tank, Block, Draft};
use super::faults::apply_any;
use super::garble::{changed, misplaced, noise};
use super::load::{grouped, mixed, spread};
use super::slips::{slip, FIRST_KN};
use super::vessel::{self, Vessel};
use super::winds::blow;
use crate::instrument::{Call, MOST_ROOM};
use crate::layout::{fields, A2, C1, C6};
use crate::report::REPORT;
use crate::sets::SETS;
use crate::stream::LONGEST;
use crate::text::MOST_CHARACTERS;
use crate::unit::TENTHS;

pub fn call(dice: &mut Dice, small: bool) -> Call {
    let mut text = match dice.index(44) {
        0..=5 => sound(dice, small).text(),
        6..=17 => booklet(dice, small).text(),
        18..=21 => windy(dice),
        22 => high(dice),
        23..=24 => valued(dice, small, true),
        25..=26 => valued(dice, small, false),
        27..=31 => faulty(dice, small),
        32..=34 => {
            let text = either(dice, small).text();
            misplaced(dice, &text)
        }
        35..=38 => {
            let text = either(dice, small).text();
            changed(dice, text)
        }
        39..=42 => slipped(dice, small),
        _ => noise(dice, small),
    };
    text.truncate(LONGEST);
    let limit = limit(dice, text.len());
    let room = room(dice, &text);
    Call { text, limit, room }
}

/// One limit in seven is not the library's own.
fn limit(dice: &mut Dice, length: usize) -> usize {
    match dice.index(40) {
        0 => length.saturating_sub(1),
        1 => length,
        2 => length + 1,
        3 => dice.index(2 * length + 1),
        4 => 60_000,
        5 => dice.index(1 << 32),
        _ => MOST_CHARACTERS,
    }
}

/// One room in seven is another than enough for every text.
fn room(dice: &mut Dice, text: &[u8]) -> usize {
    let lines = text.split(|&c| c == b'\n');
    let asked = REPORT * lines.filter(|line| line.starts_with(b"A3")).count();
    match dice.index(40) {
        0 => asked.saturating_sub(1),
        1 => asked,
        2 => asked + 1,
        3 => dice.pick(&[0, 208, 209, 210]),
        4 => dice.index(MOST_ROOM + 100),
        5 => dice.index(1 << 32),
        _ => MOST_ROOM,
    }
}

/// A sound draft of one condition or of many.
fn either(dice: &mut Dice, small: bool) -> Draft {
    if dice.chance(25) {
        sound(dice, small)
    } else {
        booklet(dice, small)
    }
}

/// A ship with conditions that differ in everything, now and then too many.
fn booklet(dice: &mut Dice, small: bool) -> Draft {
    let (rows, count, most) = match dice.index(12) {
        _ if small => (2 + dice.index(2), 1 + dice.index(4), 3),
        0 => (2 + dice.index(39), 1 + dice.index(24), 30),
        1 => (2 + dice.index(4), 22 + dice.index(5), 6),
        2..=4 => (2 + dice.index(8), 1 + dice.index(24), 8),
        _ => (2 + dice.index(8), 2 + dice.index(5), 12),
    };
    let vessel = vessel::any(dice, rows);
    let mut draft = vessel.hull();
    for _ in 0..count {
        let voyage = vessel.voyage(dice);
        let entries = 1 + dice.index(most);
        let entries = spread(dice, &voyage, entries);
        let entries = mixed(dice, entries);
        let entries = grouped(dice, entries);
        draft.frames.push(voyage.condition(entries));
    }
    draft
}

fn sound(dice: &mut Dice, small: bool) -> Draft {
    let (rows, entries) = match dice.index(8) {
        _ if small => (2 + dice.index(3), 1 + dice.index(5)),
        0 => (2 + dice.index(39), 1 + dice.index(200)),
        1 => (2 + dice.index(39), 1 + dice.index(40)),
        _ => (2 + dice.index(8), 1 + dice.index(30)),
    };
    let vessel = vessel::any(dice, rows);
    let entries = spread(dice, &vessel, entries);
    laid_out(dice, vessel, entries)
}

/// The vessel with these entries, some tanks as cargo tanks and some entries
/// in groups, by any of the sets of criteria.
fn laid_out(dice: &mut Dice, mut vessel: Vessel, entries: Vec<Block>) -> Draft {
    let entries = mixed(dice, entries);
    let entries = grouped(dice, entries);
    vessel.criteria = dice.pick(&SETS);
    vessel.draft(entries)
}

/// A ship that criterion 8 judges, under any wind and with any flooding.
fn windy(dice: &mut Dice) -> Vec<u8> {
    let mut vessel = vessel::judged(dice);
    let lever = dice.between(0, 160);
    blow(&mut vessel, lever);
    vessel.weather.flooding = dice.between(150, 600);
    vessel.ship.sharp_bilge = dice.chance(15);
    let gm = dice.between(400, 2_500);
    vessel.set_gm(TENTHS.of(gm));
    let entries = spread(dice, &vessel, 3);
    laid_out(dice, vessel, entries).text()
}

/// A corrected KG around its highest.
fn high(dice: &mut Dice) -> Vec<u8> {
    let vessel = vessel::any(dice, 2);
    let part = dice.between(0, vessel.mass);
    let (one, other) = (60_000 - dice.between(0, 4), 60_000 - dice.between(0, 4));
    let inertia = dice.between(0, vessel.mass / 250_000);
    let surface = tank(part, other, dice.between(900, 1_000), 1_025, inertia);
    let entries = vec![item(vessel.mass - part, one), surface];
    laid_out(dice, vessel, entries).text()
}

/// Some values set anywhere within their limits, or anywhere at all; of five
/// KN values four stay as they are, since most others would be slips.
fn valued(dice: &mut Dice, small: bool, within: bool) -> Vec<u8> {
    let mut draft = either(dice, small);
    let paths = draft.paths();
    for _ in 0..dice.between(1, 12) {
        let path = dice.pick(&paths);
        let block = draft.at(&path);
        let Some(fields) = fields(block.tag) else {
            continue;
        };
        let index = dice.index(fields.len());
        if block.tag == A2 && index >= FIRST_KN && dice.chance(80) {
            continue;
        }
        let field = fields[index];
        let held = (1 << (8 * field.width)) - 1;
        block.values[index] = match (within, dice.index(4)) {
            (_, 0) => field.least,
            (_, 1) => field.most,
            (false, 2) => dice.between(0, held),
            _ => dice.between(field.least, field.most),
        };
    }
    draft.text()
}

/// One to three slips in the rows: half of them alone, a quarter with a fault
/// of the ship or of a row, a quarter with faults anywhere; and of all one in
/// five garbled.
fn slipped(dice: &mut Dice, small: bool) -> Vec<u8> {
    let mut draft = either(dice, small);
    let rows = draft.paths_of(A2);
    for _ in 0..dice.between(1, 3) {
        let path = dice.pick(&rows);
        slip(dice, &mut draft.at(&path).values[FIRST_KN..]);
    }
    let mut text = match dice.index(4) {
        0 => spoiled(dice, draft),
        1 => {
            let frame = dice.index(rows.len() + 1);
            apply_any(dice, &mut draft, &[frame]);
            draft.text()
        }
        _ => draft.text(),
    };
    if dice.chance(20) {
        text = match dice.chance(50) {
            true => misplaced(dice, &text),
            false => changed(dice, text),
        };
    }
    text
}

/// One to three faults of blocks; the later ones are put in first, so that
/// the paths of the others still lead somewhere. One in six is the tag of a
/// weather block.
fn faulty(dice: &mut Dice, small: bool) -> Vec<u8> {
    let draft = either(dice, small);
    spoiled(dice, draft)
}

fn spoiled(dice: &mut Dice, mut draft: Draft) -> Vec<u8> {
    let all = draft.paths();
    let mut paths: Vec<Vec<usize>> = (0..dice.between(1, 3)).map(|_| dice.pick(&all)).collect();
    paths.sort();
    paths.dedup();
    for path in paths.iter().rev() {
        if dice.index(6) == 0 {
            draft.at(path).tag = dice.pick(&[C1, C6]);
        } else {
            apply_any(dice, &mut draft, path);
        }
    }
    draft.text()
}
