//! Faults of every number inside conditions: in the first, a middle and the
//! last, in two and three at once, and before faults of the whole text.

use super::{booklet, lines_of, roomed, spoil, text_of, FIRST, NUMBERS};
use crate::corpus::cases::Cases;
use crate::corpus::dice::Dice;
use crate::corpus::draft::Draft;
use crate::corpus::faults::{apply, Fault};

pub fn add(cases: &mut Cases) {
    for number in NUMBERS {
        for place in 1..=3 {
            cases.add(format!("{number} in condition {place} of 3"), move |dice| {
                spoiled(dice, 3, &[(place, number)]).text()
            });
        }
    }
    for (turn, number) in NUMBERS.into_iter().enumerate() {
        let other = NUMBERS[(turn + 3) % 7];
        let third = NUMBERS[(turn + 5) % 7];
        for (pair, (one, two)) in [(1, 2), (1, 3), (2, 3)].into_iter().enumerate() {
            let name = format!("{number} in condition {one} and {other} in condition {two} of 3");
            cases.add_where(pair != turn % 3, name, move |dice| {
                spoiled(dice, 3, &[(one, number), (two, other)]).text()
            });
        }
        let name = format!("{number}, {other} and {third} in the conditions");
        let faults = [(1, number), (2, other), (3, third)];
        cases.add(name.clone(), move |dice| spoiled(dice, 3, &faults).text());
        cases.add_full(format!("{name}, two sound behind"), move |dice| {
            spoiled(dice, 5, &faults).text()
        });
    }
    cases.add(
        "the same condition three times, the second spoiled",
        |dice| {
            let mut draft = booklet(dice, 1);
            let same = draft.frames[FIRST].clone();
            draft.frames.extend([same.clone(), same]);
            spoil(dice, &mut draft, FIRST + 1, 6);
            draft.text()
        },
    );
    add_lines(cases);
    add_frames(cases);
    add_others(cases);
}

/// A booklet of so many conditions with these faults, conditions from 1.
fn spoiled(dice: &mut Dice, count: usize, faults: &[(usize, u8)]) -> Draft {
    let mut draft = booklet(dice, count);
    for &(condition, number) in faults {
        spoil(dice, &mut draft, FIRST + condition - 1, number);
    }
    draft
}

/// What is for the whole text counts before every fault inside a condition:
/// refusal 1 and misplaced lines.
fn add_lines(cases: &mut Cases) {
    let behind = [
        ("an unended line", "A1"),
        ("an empty line", "\n"),
        ("a wrong character", "A3000G\n"),
        ("a misplaced line of one byte", "A2\n"),
        ("a misplaced line of two bytes", "C100\n"),
        ("a misplaced line past itself", "A1000D00\n"),
        ("a misplaced frame", "C20006000000000000\n"),
        ("a misplaced line and no line", "D1\n0\n"),
        ("two misplaced lines", "D10000\n00\n"),
    ];
    for ((name, behind), number) in behind.into_iter().zip(NUMBERS.into_iter().cycle()) {
        cases.add(
            format!("{name} behind a condition's {number}"),
            move |dice| {
                let mut text = spoiled(dice, 2, &[(1, number)]).text();
                text.extend(behind.bytes());
                text
            },
        );
    }
}

/// So do faults of ship and rows.
fn add_frames(cases: &mut Cases) {
    let mut numbers = NUMBERS[2..].iter().chain(&NUMBERS).copied();
    for frame in [0, 1, 2] {
        let faults = [Fault::PastAll, Fault::BodyShort, Fault::Value, Fault::Tag];
        for (fault, number) in faults.into_iter().zip(numbers.by_ref()) {
            let name = format!("{fault:?} of frame {frame} and a condition's {number}");
            cases.add(name, move |dice| {
                let mut draft = spoiled(dice, 1, &[(1, number)]);
                apply(dice, &mut draft, &[frame], fault);
                draft.text()
            });
        }
    }
}

/// So do the 25th condition line and the second 9.
fn add_others(cases: &mut Cases) {
    for (place, number) in [(0, 2), (24, 3)] {
        let name = format!("25 conditions, number {} with a {number}", place + 1);
        cases.add(name, move |dice| {
            let mut lines = lines_of(&spoiled(dice, 1, &[(1, number)]));
            let sound = lines.split_off(FIRST);
            let mut short = vec![vec![0xA3, 0, 0]; 24];
            short.splice(place..place, sound);
            lines.extend(short);
            text_of(&lines)
        });
    }
    cases.add("no room behind a condition's 4", |dice| {
        roomed(spoiled(dice, 2, &[(1, 4)]).text(), 417)
    });
}
