//! Loading conditions: a mass spread over items and tanks, and these put
//! into groups within groups.

use super::dice::Dice;
use super::draft::{cargo, group, item, tank, Block};
use super::vessel::Vessel;
use crate::condition::MOST_DEPTH;
use crate::layout::C3;

/// So many entries around the vessel's KG, with tanks among them.
pub fn spread(dice: &mut Dice, vessel: &Vessel, count: usize) -> Vec<Block> {
    let mut rest = vessel.mass;
    let reach = vessel.kg / dice.between(2, 12);
    let mut entries = Vec::new();
    for left in (1..=count as i128).rev() {
        let mass = if left == 1 {
            rest
        } else {
            dice.between(0, 2 * rest / left).min(rest)
        };
        rest -= mass;
        let centre = (vessel.kg + dice.between(-reach, reach)).clamp(0, 60_000);
        entries.push(if dice.chance(40) {
            some_tank(dice, vessel, mass, centre)
        } else {
            item(mass, centre)
        });
    }
    entries
}

fn some_tank(dice: &mut Dice, vessel: &Vessel, mass: i128, centre: i128) -> Block {
    let fill = match dice.index(8) {
        0 => 979,
        1 => 980,
        2 => 1_000,
        3 => 1,
        _ => dice.between(1, 1_000),
    };
    let fill = if mass == 0 && dice.chance(50) {
        0
    } else {
        fill
    };
    let density = dice.pick(&[1_025, 1_000, 850, 960, 0, 2_000]);
    let widest = (vessel.mass / 40_000).clamp(1, 100_000);
    tank(mass, centre, fill, density, dice.between(0, widest))
}

/// The same entries with some of the tanks filled to 98.5 %, and a third of
/// them as cargo tanks.
pub fn mixed(dice: &mut Dice, mut entries: Vec<Block>) -> Vec<Block> {
    for entry in entries.iter_mut().filter(|entry| entry.form() == C3) {
        if dice.chance(15) {
            entry.values[2] = 985;
        }
        if dice.chance(33) {
            *entry = cargo(entry.clone());
        }
    }
    entries
}

/// The same entries with some neighbours put together in groups.
pub fn grouped(dice: &mut Dice, entries: Vec<Block>) -> Vec<Block> {
    let depth = dice.index(MOST_DEPTH + 1);
    within(dice, entries, depth)
}

fn within(dice: &mut Dice, mut entries: Vec<Block>, depth: usize) -> Vec<Block> {
    if depth == 0 {
        return entries;
    }
    let mut grouped = Vec::new();
    while !entries.is_empty() {
        let taken = 1 + dice.index(entries.len());
        let later = entries.split_off(taken);
        if dice.chance(60) {
            grouped.push(group(within(dice, entries, depth - 1)));
        } else {
            grouped.extend(entries);
        }
        entries = later;
    }
    grouped
}
