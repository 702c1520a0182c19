//! Refusals 2 to 6 at every kind of place, each alone, with a second fault
//! before it and with a second fault behind it.

use super::cases::Cases;
use super::dice::Dice;
use super::draft::{item, nested, tank, Draft};
use super::vessel;
use crate::layout::{fields, A1, A2, A3, C1, C4, C6};

#[derive(Clone, Copy, Debug, PartialEq)]
pub enum Fault {
    /// The length runs one byte past the parent, but not past the line if
    /// more follows there.
    PastParent,
    /// The length is the most that can be written.
    PastAll,
    OneLong,
    OneShort,
    /// The block is the last of its parent, one or two bytes of it.
    Cut(usize),
    Tag,
    BodyShort,
    BodyLong,
    /// Bytes that stand in the parent where a block would begin.
    Stray(usize),
    Empty,
    /// A3 with its weather alone, or a group with its first entry alone.
    First,
    Value,
}

use Fault::*;

pub const OF_FRAME: [Fault; 11] = [
    PastParent,
    PastAll,
    OneShort,
    Cut(1),
    Cut(2),
    Tag,
    BodyShort,
    BodyLong,
    Stray(1),
    Empty,
    Value,
];
pub const OF_CONDITION: [Fault; 11] = [
    PastParent,
    PastAll,
    OneShort,
    Cut(1),
    Cut(2),
    Tag,
    BodyLong,
    Stray(1),
    Stray(2),
    Empty,
    First,
];
pub const OF_ENTRY: [Fault; 9] = [
    PastParent,
    PastAll,
    OneLong,
    OneShort,
    Cut(1),
    Cut(2),
    Tag,
    BodyShort,
    Value,
];
const OF_GROUP: [Fault; 10] = [
    PastParent,
    PastAll,
    OneLong,
    OneShort,
    Cut(1),
    Cut(2),
    Tag,
    BodyLong,
    Stray(2),
    Empty,
];

fn faults_of(form: u8) -> &'static [Fault] {
    match form {
        A1 | A2 => &OF_FRAME,
        A3 => &OF_CONDITION,
        C4 => &OF_GROUP,
        _ => &OF_ENTRY,
    }
}

#[derive(Clone, Copy, Debug, PartialEq)]
pub enum Second {
    None,
    Before,
    Behind,
}

pub const SECONDS: [Second; 3] = [Second::None, Second::Before, Second::Behind];

pub fn add(cases: &mut Cases) {
    for frame in 0..4 {
        add_at(cases, 1, vec![frame]);
    }
    add_at(cases, 1, vec![3, 0]);
    for depth in 0..=4 {
        for entry in 0..2 {
            add_at(cases, depth, entry_path(depth, entry));
        }
    }
    for depth in 1..=4 {
        let mut path = vec![3, 1];
        path.resize(depth + 1, 0);
        add_at(cases, 4, path);
    }
    for path in [
        vec![0],
        vec![1],
        vec![3],
        vec![3, 0],
        vec![3, 1],
        vec![3, 1, 0],
        vec![3, 1, 1],
    ] {
        add_pairs(cases, path);
    }
}

/// Two faults of one block, of which the order 2, 4, 3, 5, 6 decides.
pub const PAIRS: [(Fault, Fault); 8] = [
    (PastAll, Tag),
    (PastParent, Value),
    (PastAll, Empty),
    (Tag, BodyShort),
    (Tag, Value),
    (Tag, Empty),
    (BodyLong, Value),
    (Stray(1), Value),
];

fn add_pairs(cases: &mut Cases, path: Vec<usize>) {
    for (one, other) in PAIRS {
        let path = path.clone();
        cases.add(
            format!("faults {one:?} and {other:?} at {path:?}"),
            move |dice| {
                let draft = ladder(dice, 1);
                both(dice, draft, &path, (one, other))
            },
        );
    }
}

/// A draft with two faults at a path.
pub fn both(
    dice: &mut Dice,
    mut draft: Draft,
    path: &[usize],
    (one, other): (Fault, Fault),
) -> Vec<u8> {
    apply(dice, &mut draft, path, other);
    apply(dice, &mut draft, path, one);
    draft.text()
}

pub fn entry_path(depth: usize, entry: usize) -> Vec<usize> {
    if depth == 0 {
        return vec![3, 1 + entry];
    }
    let mut path = vec![3, 1];
    path.resize(depth + 1, 0);
    path.push(entry);
    path
}

/// With a second fault where the nesting is least, midst and most; in a small
/// corpus not where it is midst.
fn add_at(cases: &mut Cases, depth: usize, path: Vec<usize>) {
    let form = ladder(&mut Dice::new(0, 0), depth).at(&path).form();
    let alone = path.len() > 2 && depth % 2 == 1;
    let groups = path.len().saturating_sub(if form == C4 { 1 } else { 2 });
    let midst = [2, 3].contains(&groups);
    for &fault in faults_of(form) {
        for &second in if alone { &SECONDS[..1] } else { &SECONDS[..] } {
            let name = format!("fault {fault:?} at {path:?} of depth {depth}, second {second:?}");
            let path = path.clone();
            let spared = midst && second != Second::None;
            cases.add_spared(spared, name, move |dice| {
                let draft = ladder(dice, depth);
                faulty(dice, draft, &path, fault, second)
            });
        }
    }
}

/// Two rows, and an item and a tank so many groups deep, with an item behind.
pub fn ladder(dice: &mut Dice, depth: usize) -> Draft {
    let mut vessel = vessel::judged(dice);
    vessel.rows.truncate(2);
    vessel.mass = vessel.rows[0].displacement;
    let part = vessel.mass / dice.between(3, 9);
    let pair = vec![
        item(vessel.mass - 2 * part, vessel.kg),
        tank(part, vessel.kg, 990, 1_025, 8),
    ];
    let mut entries = nested(depth, pair);
    entries.push(item(part, vessel.kg));
    vessel.draft(entries)
}

/// A draft with a fault at a path and a second one somewhere else.
pub fn faulty(
    dice: &mut Dice,
    mut draft: Draft,
    path: &[usize],
    fault: Fault,
    second: Second,
) -> Vec<u8> {
    let paths = draft.paths();
    let others: Vec<Vec<usize>> = match second {
        Second::None => Vec::new(),
        Second::Before => paths
            .into_iter()
            .filter(|other| other.as_slice() < path)
            .collect(),
        Second::Behind => paths
            .into_iter()
            .filter(|other| other.as_slice() > path)
            .collect(),
    };
    let other = if others.is_empty() {
        None
    } else {
        Some(dice.pick(&others))
    };
    match (other, second) {
        (Some(other), Second::Behind) => {
            apply_any(dice, &mut draft, &other);
            apply(dice, &mut draft, path, fault);
        }
        (Some(other), _) => {
            apply(dice, &mut draft, path, fault);
            apply_any(dice, &mut draft, &other);
        }
        (None, _) => apply(dice, &mut draft, path, fault),
    }
    draft.text()
}

/// Some fault of those that a block of this kind can have.
pub fn apply_any(dice: &mut Dice, draft: &mut Draft, path: &[usize]) {
    let form = draft.at(path).form();
    let fault = dice.pick(faults_of(form));
    apply(dice, draft, path, fault);
}

/// The bytes from the block's body to the end of its parent.
fn room(draft: &mut Draft, path: &[usize]) -> usize {
    let Some((&index, parent)) = path.split_last() else {
        return 0;
    };
    if parent.is_empty() {
        return draft.at(path).bytes().len().saturating_sub(3);
    }
    let parent = draft.at(parent);
    let before: usize = parent.inner[..index]
        .iter()
        .map(|block| block.bytes().len())
        .sum();
    parent.body().len().saturating_sub(before + 3)
}

pub fn apply(dice: &mut Dice, draft: &mut Draft, path: &[usize], fault: Fault) {
    let room = room(draft, path);
    if let (Cut(_), [parent @ .., index]) = (fault, path) {
        if !parent.is_empty() {
            draft.at(parent).inner.truncate(index + 1);
        }
    }
    let block = draft.at(path);
    let length = block.body().len();
    let stray = [dice.pick(&[0x00, 0xA2, 0xC2, 0xC3, 0xC4]), 0, 0];
    match fault {
        PastParent => block.declared = Some((room + 1).min(65_535)),
        PastAll => block.declared = Some(65_535),
        OneLong => block.declared = Some(length + 1),
        OneShort => block.declared = Some(length.saturating_sub(1)),
        Cut(kept) => block.cut = Some(kept),
        Tag => block.tag = wrong_tag(dice, block.tag, path.len() == 1),
        BodyShort => {
            let last = block.values.len().saturating_sub(1);
            block.values.truncate(last);
        }
        BodyLong => block.tail.push(0),
        Stray(count) if block.inner.is_empty() => block.spill = stray[..count].to_vec(),
        Stray(count) => block.tail = stray[..count].to_vec(),
        Empty => {
            block.values.clear();
            block.inner.clear();
            block.tail.clear();
        }
        First => block.inner.truncate(1),
        Value => spoil(dice, block),
    }
}

/// A tag that is not allowed in the place of the right one.
fn wrong_tag(dice: &mut Dice, right: u8, frame: bool) -> u8 {
    let outside = [0x00, 0xFF, 0xA0, 0xA4, 0xC0, 0x5C, 0xD1, 0x2C];
    let others: &[u8] = match (right, frame) {
        (A1, _) => &[0xA2, 0xA3, 0xC1],
        (A2, _) => &[0xA1, 0xC2, 0xC4],
        (C1 | C6, _) => &[0xC2, 0xC3, 0xC4, 0xA1],
        (_, true) => &[0xA1, 0xC1, 0xC4],
        _ => &[0xC1, 0xA1, 0xA2, 0xA3],
    };
    if dice.chance(70) {
        dice.pick(others)
    } else {
        dice.pick(&outside)
    }
}

/// One value outside its limits, as near as its bytes allow or far off.
fn spoil(dice: &mut Dice, block: &mut super::draft::Block) {
    let Some(fields) = fields(block.form()) else {
        return;
    };
    if block.values.len() != fields.len() {
        return;
    }
    let index = dice.index(fields.len());
    let field = fields[index];
    let held = (1 << (8 * field.width)) - 1;
    let mut beyond = vec![field.most + 1, held, dice.between(field.most + 1, held)];
    if field.least > 0 {
        beyond.extend([field.least - 1, 0]);
    }
    block.values[index] = dice.pick(&beyond);
}
